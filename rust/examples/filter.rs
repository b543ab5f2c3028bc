//! Writes those D-Bus messages on standard input that a match rule matches, as
//! `dbus-wire filter RULE` does: the first argument is the rule, and each further one an owner of a
//! name, as org.a.B=:1.7.

use std::error::Error;
use std::io::{self, Read, Write};
use std::process::ExitCode;

use dbus_wire::{Message, Rule, RuleError};

fn main() -> Result<ExitCode, Box<dyn Error>> {
    let mut words = std::env::args().skip(1);
    let mut rule = match Rule::parse(&words.next().ok_or("usage: filter RULE [NAME=UNIQUE]..")?) {
        Ok(rule) => rule,
        Err(RuleError::Refused(fault)) => {
            eprintln!("rule refused at {}: {:?}", fault.at, fault.reason);
            return Ok(ExitCode::from(2));
        }
        Err(other) => return Err(other.into()),
    };
    for word in words {
        let (name, owner) = word.split_once('=').ok_or("an owner is NAME=UNIQUE")?;
        rule.set_owner(name, owner)?;
    }
    let mut bytes = Vec::new();
    io::stdin().read_to_end(&mut bytes)?;
    let mut out = io::BufWriter::new(io::stdout().lock());
    let mut rest = &bytes[..];
    while !rest.is_empty() {
        let message = Message::parse(rest)?;
        if rule.matches(&message)? {
            out.write_all(message.bytes())?;
        }
        rest = &rest[message.bytes().len()..];
    }
    out.flush()?;
    Ok(ExitCode::SUCCESS)
}
