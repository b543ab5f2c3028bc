//! Links the library: from the folder that `DBUS_WIRE_LIB_DIR` names, or as pkg-config says.

use std::env;
use std::path::Path;
use std::process::{exit, Command};

const FILES: [&str; 2] = ["libdbus_wire.so", "libdbus_wire.a"];

fn stop(why: &str) -> ! {
    eprintln!(
        "dbus-wire: {why}. Install libdbus_wire {version} (`make install`, or the package libdbus-wire-dev), so that \
         `pkg-config dbus-wire` finds it, or let DBUS_WIRE_LIB_DIR name the folder of libdbus_wire.so or libdbus_wire.a.",
        version = env!("CARGO_PKG_VERSION"),
    );
    exit(1)
}

// The folders of the library as pkg-config has them, none if the linker looks there by itself.
fn folders_of_pkg_config() -> Vec<String> {
    let tool = env::var("PKG_CONFIG").unwrap_or_else(|_| "pkg-config".to_owned());
    let oldest = format!("dbus-wire >= {}", env!("CARGO_PKG_VERSION"));
    match Command::new(&tool).args(["--libs-only-L", &oldest]).output() {
        Ok(found) if found.status.success() => {
            let flags = String::from_utf8_lossy(&found.stdout).into_owned();
            flags.split_whitespace().filter_map(|flag| flag.strip_prefix("-L")).map(str::to_owned).collect()
        }
        Ok(_) => stop(&format!("the C library is missing: {tool} finds no {oldest}")),
        Err(fault) => stop(&format!("the C library is not found, since {tool} does not run ({fault})")),
    }
}

fn main() {
    for name in ["DBUS_WIRE_LIB_DIR", "PKG_CONFIG", "PKG_CONFIG_PATH"] {
        println!("cargo:rerun-if-env-changed={name}");
    }
    println!("cargo:rerun-if-changed=build.rs");
    // Documentation needs no library.
    if env::var_os("DOCS_RS").is_some() {
        return;
    }
    let folders = match env::var("DBUS_WIRE_LIB_DIR") {
        Ok(folder) if FILES.iter().any(|file| Path::new(&folder).join(file).exists()) => vec![folder],
        Ok(folder) => stop(&format!("DBUS_WIRE_LIB_DIR is {folder}, which has no libdbus_wire.so and no libdbus_wire.a")),
        Err(_) => folders_of_pkg_config(),
    };
    for folder in folders {
        println!("cargo:rustc-link-search=native={folder}");
    }
    println!("cargo:rustc-link-lib=dbus_wire");
}
