//! The declarations of `sys` and the sentences of reasons are those of `include/dbus_wire.h`.

const HEADER: &str = include_str!("../include/dbus_wire.h");
const SYS: &str = include_str!("../src/sys.rs");

// What is between the two texts, the first time.
fn between<'a>(text: &'a str, start: &str, end: &str) -> &'a str {
    let (_, rest) = text.split_once(start).unwrap_or_else(|| panic!("no {start}"));
    rest.split_once(end).unwrap_or_else(|| panic!("no {end}")).0
}

fn without_comments(text: &str) -> String {
    let mut pieces = text.split("/*");
    let first = pieces.next().unwrap().to_owned();
    pieces.fold(first, |code, piece| code + piece.split_once("*/").expect("a comment ends").1)
}

// The header's declarations, without comments, preprocessor lines, attributes and functions that
// are inline.
fn declarations() -> String {
    let code = without_comments(HEADER);
    let (code, _) = code.split_once("static inline").expect("there are inline functions");
    let lines = code.lines().filter(|line| !line.starts_with('#'));
    let code: String = lines.filter(|line| !line.starts_with("extern")).map(|line| format!("{line} ")).collect();
    let mut pieces = code.split("DBUS_WIRE_NOT_NULL((");
    let first = pieces.next().unwrap().to_owned();
    let code = pieces.fold(first, |code, piece| code + piece.split_once("))").expect("an attribute ends").1);
    code.replace("DBUS_WIRE_ANSWERS", " ")
}

fn squeezed(code: &str) -> String {
    let code: String = code.split_whitespace().collect();
    code.replace(",)", ")").replace(",}", "}")
}

// A type of C as Rust has it, and the name that is declared with it.
fn declared(text: &str) -> (String, String) {
    let words: Vec<_> = text.split_whitespace().filter(|word| *word != "struct").collect();
    let (name, words) = words.split_last().expect("a type and a name");
    let (pointer, words) = match words.split_first() {
        Some((&"const", rest)) => ("*const ", rest),
        _ => ("*mut ", words),
    };
    let kind = match words.concat().trim_end_matches('*') {
        "uint8_t" => "u8",
        // Bytes that are read.
        "void" if pointer == "*const " => "u8",
        "uint16_t" => "u16",
        "uint32_t" => "u32",
        "uint64_t" => "u64",
        "size_t" => "usize",
        "void" => "c_void",
        other => other,
    }
    .to_owned();
    match name.strip_prefix('*') {
        Some(name) => (pointer.to_owned() + &kind, name.to_owned()),
        None => (kind, (*name).to_owned()),
    }
}

// Of each declaration the same in Rust.
fn in_rust(declaration: &str) -> Vec<String> {
    let declaration = declaration.trim();
    if let (true, Some((_, numbers))) = (declaration.starts_with("enum "), declaration.split_once('{')) {
        let numbers = numbers.split(',').filter(|number| !number.trim().is_empty());
        return numbers.map(|number| format!("pub const {};", number.replacen('=', ": u32 =", 1))).collect();
    }
    if let Some((head, fields)) = declaration.split_once('{') {
        let mut body = String::new();
        for field in fields.split(';').filter(|field| !field.trim().is_empty()) {
            let (kind, first) = declared(field.split(',').next().unwrap());
            let others = field.split(',').skip(1).map(|name| name.trim().to_owned());
            for name in std::iter::once(first).chain(others) {
                body += &match name.trim_end_matches(']').split_once('[') {
                    Some((name, count)) => format!("pub {name}: [{kind}; {count}],"),
                    None => format!("pub {name}: {kind},"),
                };
            }
        }
        return vec![format!("pub {head} {{ {body} }}")];
    }
    let (head, arguments) = declaration.trim_end_matches(')').split_once('(').expect("a function");
    let (result, name) = declared(head);
    let arguments = arguments.split(',').filter(|argument| *argument != "void").map(|argument| {
        let (kind, name) = declared(argument);
        format!("{name}: {kind}")
    });
    let arguments = arguments.collect::<Vec<_>>().join(", ");
    vec![match result.as_str() {
        "c_void" => format!("pub fn {name}({arguments});"),
        result => format!("pub fn {name}({arguments}) -> {result};"),
    }]
}

// The declarations of the header, one each: what is between semicolons that are in no braces.
fn split_declarations(code: &str) -> Vec<String> {
    let (mut all, mut depth) = (vec![String::new()], 0);
    for character in code.chars() {
        match character {
            '{' => depth += 1,
            '}' => depth -= 1,
            _ => {}
        }
        match character {
            ';' if depth == 0 => all.push(String::new()),
            '}' if depth == 0 => {}
            _ => all.last_mut().unwrap().push(character),
        }
    }
    all.retain(|declaration| !declaration.trim().is_empty());
    all
}

#[test]
fn declarations_are_the_headers() {
    let lines = SYS.lines().filter(|line| !line.trim_start().starts_with("//"));
    let sys = squeezed(&lines.collect::<Vec<_>>().join("\n"));
    let wanted: Vec<String> = split_declarations(&declarations()).iter().flat_map(|one| in_rust(one)).collect();
    for declaration in &wanted {
        assert!(sys.contains(&squeezed(declaration)), "sys.rs has no `{declaration}`");
    }
    let declared = ["pubconst", "pubstruct", "pubfn"].iter().map(|word| sys.matches(word).count()).sum::<usize>();
    assert_eq!(declared, wanted.len(), "sys.rs declares what the header does not");
}

#[test]
fn sizes_are_the_headers() {
    let asserted: Vec<(&str, &str)> = SYS
        .lines()
        .filter_map(|line| line.strip_prefix("const _: () = assert!(size_of::<")?.strip_suffix(");")?.split_once(">() == "))
        .collect();
    assert_eq!(asserted.len(), SYS.matches("pub struct").count());
    for (name, size) in asserted {
        let (before, _) = HEADER.split_once(&format!("\nstruct {name} {{")).expect("the header has the struct");
        assert!(before.ends_with(&format!("{size} bytes. */")), "{name} has not {size} bytes in the header");
    }
}

#[test]
fn versions_are_the_headers() {
    let number = |name: &str| between(HEADER, &format!("#define DBUS_WIRE_VERSION_{name} "), "\n").parse::<u32>().unwrap();
    let version = (number("MAJOR"), number("MINOR"), number("PATCH"));
    assert_eq!(dbus_wire::version(), version);
    assert_eq!(env!("CARGO_PKG_VERSION"), format!("{}.{}.{}", version.0, version.1, version.2));
}
