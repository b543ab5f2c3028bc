//! Lists the D-Bus messages on standard input, as `dbus-wire show` does.

use std::error::Error;
use std::io::{self, Read, Write};

use dbus_wire::{Kind, Limits, Message, Order, Value, Values};

fn kind_name(kind: Kind) -> String {
    match kind {
        Kind::MethodCall => "method_call".into(),
        Kind::MethodReturn => "method_return".into(),
        Kind::Error => "error".into(),
        Kind::Signal => "signal".into(),
        Kind::Other(kind) => format!("kind{kind}"),
    }
}

/// The names of the header fields from code 1 on.
const FIELD_NAMES: [&str; 9] =
    ["path", "interface", "member", "error_name", "reply_serial", "destination", "sender", "signature", "unix_fds"];

/// A known field's value, a text or a number, stands alone; any other is shown as any value is.
fn field((code, value): (u8, Value<'_>)) -> String {
    match (FIELD_NAMES.get(usize::from(code) - 1), value) {
        (Some(name), Value::Uint32(number)) => format!(" {name}={number}"),
        (Some(name), Value::String(text) | Value::ObjectPath(text) | Value::Signature(text)) => format!(" {name}={text}"),
        (_, value) => format!(" field{code}={}", shown(value)),
    }
}

fn quoted(text: &str) -> String {
    let mut quoted = String::from("\"");
    for character in text.chars() {
        match character {
            '"' | '\\' => quoted.extend(['\\', character]),
            '\0'..='\x1f' | '\x7f' => quoted += &format!("\\x{:02x}", character as u32),
            _ => quoted.push(character),
        }
    }
    quoted + "\""
}

fn joined(values: Values<'_>) -> String {
    values.map(shown).collect::<Vec<_>>().join(", ")
}

fn shown(value: Value<'_>) -> String {
    match value {
        Value::Byte(number) => format!("y:{number}"),
        Value::Boolean(flag) => format!("b:{flag}"),
        Value::Int16(number) => format!("n:{number}"),
        Value::Uint16(number) => format!("q:{number}"),
        Value::Int32(number) => format!("i:{number}"),
        Value::Uint32(number) => format!("u:{number}"),
        Value::Int64(number) => format!("x:{number}"),
        Value::Uint64(number) => format!("t:{number}"),
        Value::Double(number) => format!("d:{:016x}", number.to_bits()),
        Value::UnixFd(index) => format!("h:{index}"),
        Value::String(text) => format!("s:{}", quoted(text)),
        Value::ObjectPath(text) => format!("o:{}", quoted(text)),
        Value::Signature(text) => format!("g:{}", quoted(text)),
        Value::Array(array) => match array.bytes() {
            Some(bytes) => format!("ay:{}", bytes.iter().map(|byte| format!("{byte:02x}")).collect::<String>()),
            None => format!("a{}:[{}]", array.element_type(), joined(array.elements())),
        },
        Value::Struct(fields) => format!("({})", joined(fields)),
        Value::Entry(entry) => format!("{{{}, {}}}", shown(entry.key()), shown(entry.value())),
        Value::Variant(variant) => format!("<{}>", shown(variant.value())),
    }
}

fn list(out: &mut impl Write, number: usize, message: &Message<'_>, mut body: Values<'_>) -> io::Result<()> {
    let order = if message.order() == Order::Big { 'B' } else { 'l' };
    let (kind, serial, flags) = (kind_name(message.kind()), message.serial(), message.flags().bits());
    write!(out, "#{number} {order} {kind} serial={serial} flags={flags:02x}")?;
    message.fields().try_for_each(|of| write!(out, "{}", field(of)))?;
    writeln!(out)?;
    body.try_for_each(|value| writeln!(out, "  {}", shown(value)))
}

fn main() -> Result<(), Box<dyn Error>> {
    let mut bytes = Vec::new();
    io::stdin().read_to_end(&mut bytes)?;
    let mut out = io::BufWriter::new(io::stdout().lock());
    let (mut rest, mut number) = (&bytes[..], 0);
    while !rest.is_empty() {
        let (message, body) = Message::parse_with_body(rest, &Limits::default())?;
        number += 1;
        list(&mut out, number, &message, body)?;
        rest = &rest[message.bytes().len()..];
    }
    Ok(out.flush()?)
}
