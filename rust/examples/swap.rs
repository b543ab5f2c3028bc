//! Writes the D-Bus messages on standard input in the byte order that the argument says, `l` or
//! `B`, as `dbus-wire swap --to` does.

use std::error::Error;
use std::io::{self, Read, Write};

use dbus_wire::{Message, Order};

fn main() -> Result<(), Box<dyn Error>> {
    let order = match std::env::args().nth(1).as_deref() {
        Some("l") => Order::Little,
        Some("B") => Order::Big,
        _ => return Err("usage: swap l|B".into()),
    };
    let mut bytes = Vec::new();
    io::stdin().read_to_end(&mut bytes)?;
    let mut out = io::BufWriter::new(io::stdout().lock());
    let mut rest = &bytes[..];
    while !rest.is_empty() {
        let message = Message::parse(rest)?;
        out.write_all(&message.in_order(order))?;
        rest = &rest[message.bytes().len()..];
    }
    Ok(out.flush()?)
}
