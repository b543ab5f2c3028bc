//! Writes the D-Bus messages on standard input once more, the body of each made of values of Rust
//! as which it was read: those whose types are in the list below, with the keys of maps in order.

use std::collections::BTreeMap;
use std::error::Error;
use std::io::{self, Write};

use dbus_wire::{messages, rebuild, spell, Limits, Message, ObjectPath, Parts, Signature, Spelled, UnixFd, Value};

// The body, read as the first type of the list that has its types, and put again.
macro_rules! again {
    ($message:ident: $($types:literal $name:ty;)*) => {
        match $message.signature().unwrap_or_default() {
            $($types => spell($message.order(), $message.body_as::<$name>()?)?,)*
            other => return Err(format!("no type of the list is {other}").into()),
        }
    };
}

fn again(message: &Message<'_>) -> Result<Spelled, Box<dyn Error>> {
    Ok(again! {
        message:
        "" ();
        "s" String;
        "ybnqiuxtdh" (u8, bool, i16, u16, i32, u32, i64, u64, f64, UnixFd);
        "sog" (&str, ObjectPath<String>, Signature<&str>);
        "yay" (u8, &[u8]);
        "ayad" (Vec<u8>, Vec<f64>);
        "aasaan" (Vec<Vec<String>>, Vec<Vec<i16>>);
        "a(su)" Vec<(String, u32)>;
        "(s(yv)at)" ((String, (u8, Value), Vec<u64>),);
        "sa{sv}as" (&str, BTreeMap<&str, Value>, Vec<&str>);
        "a{oa{sa{sv}}}" BTreeMap<ObjectPath<&str>, BTreeMap<String, BTreeMap<String, Value>>>;
        "avy" (Vec<Value>, u8);
        "va{ib}" (Value, BTreeMap<i32, bool>);
        "a{t(hg)}" BTreeMap<u64, (UnixFd, Signature<String>)>;
    })
}

fn main() -> Result<(), Box<dyn Error>> {
    let mut out = io::BufWriter::new(io::stdout().lock());
    for message in messages(io::stdin().lock()) {
        let message = message?;
        let message = message.message();
        let body = again(&message)?;
        let parts = Parts { signature: body.signature(), body: body.bytes(), ..message.parts() };
        out.write_all(&rebuild(&message, &parts, &Limits::default())?)?;
    }
    Ok(out.flush()?)
}
