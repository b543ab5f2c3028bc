//! The microseconds of some messages, each read as values of Rust and built of them: by the crate, by the calls of the C library
//! below it, and by zvariant, if that is there, whose figures are of a body alone. The best of many rounds.

use std::collections::HashMap;
use std::hint::black_box;
use std::time::Instant;

use dbus_wire::{sys, Kind, Limits, Message, Parts, Value};

// The least time of a call, in microseconds.
fn least<T>(mut call: impl FnMut() -> T) -> f64 {
    let one = |call: &mut dyn FnMut()| {
        let start = Instant::now();
        (0..50).for_each(|_| call());
        start.elapsed().as_secs_f64() / 50.0 * 1e6
    };
    (0..400).map(|_| one(&mut || drop(black_box(call())))).fold(f64::MAX, f64::min)
}

fn parts() -> Parts<'static> {
    Parts { path: Some("/org/a"), interface: Some("org.a.B"), member: Some("C"), ..Parts::new(Kind::Signal, 7) }
}

// The call that reads a message with its body.
fn read(bytes: &[u8], items: &mut [dbus_wire::FlatItem]) -> u64 {
    let (mut parts, mut told, mut limits) = Default::default();
    let mut count = 0;
    // SAFETY: slices and references, as `sys` says.
    unsafe {
        sys::dbus_wire_specification_limits(&raw mut limits);
        let (out, room) = (items.as_mut_ptr(), items.len());
        let answer = sys::dbus_wire_read(
            bytes.as_ptr(),
            bytes.len(),
            &raw const limits,
            &raw mut parts,
            out,
            room,
            &raw mut count,
            &raw mut told,
        );
        assert_eq!(answer, sys::DBUS_WIRE_WHOLE);
    }
    count
}

// The call that checks a message that is built of this body.
fn build(signature: &str, body: &[u8], out: &mut [u8]) -> u64 {
    let text = |text: &str, is_there| sys::dbus_wire_draft_text { bytes: text.as_ptr(), length: text.len(), is_there };
    let (none, order) = (text("", 0), u32::from(b'l'));
    let draft = sys::dbus_wire_draft {
        order,
        kind: 4,
        flags: 0,
        serial: 7,
        reply_serial: 0,
        unix_fds: 0,
        path: text("/org/a", 1),
        interface: text("org.a.B", 1),
        member: text("C", 1),
        error_name: none,
        destination: none,
        sender: none,
        signature: text(signature, 1),
        body: body.as_ptr(),
        body_length: body.len(),
    };
    let (mut told, mut limits) = (sys::dbus_wire_checked::default(), Default::default());
    // SAFETY: slices and references, as `sys` says.
    unsafe {
        sys::dbus_wire_specification_limits(&raw mut limits);
        let answer = sys::dbus_wire_build(&raw const draft, &raw const limits, out.as_mut_ptr(), out.len(), &raw mut told);
        assert_eq!(answer, sys::DBUS_WIRE_OK);
    }
    told.length
}

fn shown(figure: Option<f64>) -> String {
    figure.map_or("-".into(), |it| format!("{it:.2}"))
}

// A line: reading by the C call, the crate and zvariant, and building.
macro_rules! row {
    ($name:literal, $read:ty, $value:expr, $of_zvariant:expr) => {{
        let (value, limits) = ($value, Limits::default());
        let bytes = parts().build(&value).unwrap();
        let message = Message::parse(&bytes).unwrap();
        let (mut items, mut out) = (vec![Default::default(); 3000], vec![0; bytes.len() + 400]);
        let (signature, body) = (message.signature().unwrap(), message.body_bytes());
        let c = (least(|| read(&bytes, &mut items)), least(|| build(signature, body, &mut out)));
        let by_crate = least(|| Message::parse_with_body(&bytes, &limits).unwrap().1.read::<$read>().unwrap());
        let (zread, zbuild) = $of_zvariant(body);
        println!(
            "{:30} {:9.2} {by_crate:9.2} {:>9} {:9.2} {:9.2} {:>9}",
            $name, c.0, shown(zread), c.1, least(|| parts().build(&value).unwrap()), shown(zbuild)
        );
    }};
}

fn main() {
    println!("{:30} {:>9} {:>9} {:>9} {:>9} {:>9} {:>9}", "", "read: C", "crate", "zvariant", "build: C", "crate", "zvariant");
    row!("(&str, u32)", (&str, u32), ("x", 1u32), of_zvariant::pair);
    let names: Vec<String> = (0..5).map(|it| format!("Key{it}")).collect();
    let map = HashMap::<&str, Value>::from_iter(names.iter().map(|it| (it.as_str(), Value::from(0.5))));
    row!("HashMap<&str, Value> of 5", HashMap<&str, Value>, map.clone(), of_zvariant::map);
    let texts: Vec<String> = (0..100).map(|it| format!("text number {it}")).collect();
    row!("Vec<&str> of 100", Vec<&str>, texts.iter().map(String::as_str).collect::<Vec<_>>(), of_zvariant::texts);
    row!("Vec<f64> of 1,000", Vec<f64>, (0..1000).map(f64::from).collect::<Vec<_>>(), of_zvariant::numbers);
    row!("&[u8] of 4,096", &[u8], vec![7u8; 4096], of_zvariant::bytes);
}

#[cfg(not(feature = "zvariant"))]
mod of_zvariant {
    type Figures = (Option<f64>, Option<f64>);
    pub fn pair(_: &[u8]) -> Figures {
        (None, None)
    }
    pub use {pair as map, pair as texts, pair as numbers, pair as bytes};
}

#[cfg(feature = "zvariant")]
mod of_zvariant {
    use super::{least, HashMap};
    use zvariant::{from_slice, to_bytes, EncodingContext, Value};

    macro_rules! peer {
        ($($name:ident $type:ty;)*) => {$(
            pub fn $name(body: &[u8]) -> (Option<f64>, Option<f64>) {
                let context = EncodingContext::<byteorder::LE>::new_dbus(0);
                let value: $type = from_slice(body, context).unwrap();
                let read = least(|| from_slice::<_, $type>(body, context).unwrap());
                (Some(read), Some(least(|| to_bytes(context, &value).unwrap())))
            }
        )*};
    }

    peer! {
        pair (&str, u32);
        map HashMap<&str, Value>;
        texts Vec<&str>;
        numbers Vec<f64>;
        bytes Vec<u8>;
    }
}
