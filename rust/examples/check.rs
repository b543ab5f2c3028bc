//! Checks the D-Bus messages on standard input, one after another, and prints what
//! `dbus-wire check` prints of them.

use std::io::{self, Read};
use std::process::ExitCode;

use dbus_wire::{check, wanted, Answer, Fault, Limits, Reason};

// The fault of the first bytes that are no message, counted from the start of the input; or how
// many messages there are.
fn count_messages(bytes: &[u8]) -> Result<usize, Fault> {
    let limits = Limits::default();
    let (mut at, mut messages) = (0, 0);
    while at < bytes.len() {
        match check(&bytes[at..], &limits) {
            Answer::Whole { length, .. } => {
                assert_eq!(wanted(&bytes[at..], &limits), Some(length), "the first 16 bytes state another length");
                at += length;
                messages += 1;
            }
            Answer::Partial => return Err(Fault { at: bytes.len(), reason: Reason::Truncated }),
            Answer::Refused(fault) => return Err(Fault { at: at + fault.at, ..fault }),
        }
    }
    Ok(messages)
}

fn main() -> io::Result<ExitCode> {
    let mut bytes = Vec::new();
    io::stdin().read_to_end(&mut bytes)?;
    match count_messages(&bytes) {
        Ok(messages) => {
            println!("ok {messages} messages {} bytes", bytes.len());
            Ok(ExitCode::SUCCESS)
        }
        Err(Fault { at, reason }) => {
            println!("refused at {at}: {reason:?}");
            eprintln!("{reason}");
            Ok(ExitCode::FAILURE)
        }
    }
}
