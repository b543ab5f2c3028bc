//! Is the service org.example.Load on the session bus: Get returns this machine's load.

use std::{collections::HashMap, error::Error, fs};

use dbus_wire::{Bus, OwnedValue};

fn load() -> Result<f64, Box<dyn Error>> {
    let text = fs::read_to_string("/proc/loadavg")?;
    Ok(text.split(' ').next().ok_or("no load")?.parse()?)
}

fn main() -> Result<(), Box<dyn Error>> {
    let mut bus = Bus::session()?;
    bus.method("/org/example/Load", "org.example.Load", "Get", |_, ()| Ok(HashMap::from([("Load", OwnedValue::new(load()?)?)])));
    bus.request_name("org.example.Load")?;
    bus.run()
}
