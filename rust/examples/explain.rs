//! Explains the first of the D-Bus messages on standard input that is refused, as
//! `dbus-wire check --explain` does.

use std::io::{self, Read};
use std::process::ExitCode;

use dbus_wire::{check, explain, Answer, InputPlace, Limits};

fn main() -> io::Result<ExitCode> {
    let mut bytes = Vec::new();
    io::stdin().read_to_end(&mut bytes)?;
    let (limits, mut place) = (Limits::default(), InputPlace::default());
    let mut rest = &bytes[..];
    while let Answer::Whole { length, .. } = check(rest, &limits) {
        rest = &rest[length..];
        place = InputPlace { number: place.number + 1, offset: place.offset + length as u64 };
    }
    Ok(match explain(rest, &limits, place) {
        Some(explanation) => {
            print!("{explanation}");
            ExitCode::FAILURE
        }
        None => ExitCode::SUCCESS,
    })
}
