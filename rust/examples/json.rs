//! Writes each D-Bus message on standard input as a line of JSON, as `dbus-wire json` does.

use std::io::{self, Write};

use dbus_wire::{messages, LinePlace, ReadError};

fn main() -> Result<(), ReadError> {
    let mut out = io::BufWriter::new(io::stdout().lock());
    let mut place = LinePlace::default();
    for message in messages(io::stdin().lock()) {
        let message = message?;
        writeln!(out, "{}", message.to_json(place))?;
        place.number += 1;
        place.offset += message.bytes().len() as u64;
    }
    Ok(out.flush()?)
}
