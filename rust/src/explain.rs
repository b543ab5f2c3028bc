//! Why bytes are no message, for a reader.

use std::fmt;
use std::ops::Range;

use crate::{sys, Fault, Limits, WholeParts};

/// The room of the first call, which most explanations fit in.
const ROOM: usize = 1024;

/// Which message of its input some bytes begin with, as an explanation names it. By default it is
/// the first one.
#[derive(Clone, Copy, Debug, PartialEq, Eq, Hash)]
pub struct InputPlace {
    /// Its number, from 1.
    pub number: u64,
    /// Where it begins, in bytes from the first.
    pub offset: u64,
}

impl Default for InputPlace {
    fn default() -> Self {
        Self { number: 1, offset: 0 }
    }
}

/// A text of a message that is refused, which may not be whole.
#[derive(Clone, Copy, Debug, PartialEq, Eq, Hash)]
pub struct StatedText {
    /// Where it begins in the message, in bytes, behind its length.
    pub at: usize,
    /// The length in bytes that is stated before it, which may reach past the bytes.
    pub length: usize,
}

/// Why bytes are no message, for a reader: the lines that `dbus-wire check --explain` writes, with
/// more of the bytes behind the fault, which are also its text, and their parts. [`explain`] makes
/// it.
#[derive(Clone, Debug, PartialEq, Eq)]
pub struct Explanation {
    lines: String,
    name: Range<usize>,
    head: Option<Range<usize>>,
    rule: Range<usize>,
    /// Where and why the bytes are refused.
    pub fault: Fault,
    /// The text of the message that the fault is in, behind its length, if it is in one.
    pub text: Option<StatedText>,
}

impl Explanation {
    // What the library wrote.
    fn new(lines: String, explained: &sys::dbus_wire_explained, told: &sys::dbus_wire_checked) -> Self {
        let part = |place: &sys::dbus_wire_text| (place.is_there != 0).then_some((place.offset as usize, place.length as usize));
        let range = |place| part(place).map(|(at, length)| at..at + length);
        Self {
            lines,
            name: range(&explained.name).unwrap_or_default(),
            head: range(&explained.head),
            rule: range(&explained.rule).unwrap_or_default(),
            fault: Fault::new(told.offset, told.reason, told.field),
            text: part(&explained.text).map(|(at, length)| StatedText { at, length }),
        }
    }

    /// All lines, each ended by a line feed.
    #[must_use]
    pub fn lines(&self) -> &str {
        &self.lines
    }

    /// The name of the place of the fault: a part of the header, or the path to a value, such as
    /// `body[1]["Title"].value`.
    #[must_use]
    pub fn name(&self) -> &str {
        &self.lines[self.name.clone()]
    }

    /// The head of the message as far as it is whole before the fault, if its type is.
    #[must_use]
    pub fn head(&self) -> Option<&str> {
        self.head.clone().map(|part| &self.lines[part])
    }

    /// What has to be at the place, with its section of the D-Bus Specification.
    #[must_use]
    pub fn rule(&self) -> &str {
        &self.lines[self.rule.clone()]
    }
}

impl fmt::Display for Explanation {
    fn fmt(&self, f: &mut fmt::Formatter<'_>) -> fmt::Result {
        f.write_str(&self.lines)
    }
}

/// Why the bytes begin with no message within the limits, for a reader. `None` if they begin with
/// one, or show no fault yet.
///
/// ```
/// use dbus_wire::{explain, InputPlace, Limits};
///
/// let explanation = explain(b"l\x01\0\x02", &Limits::default(), InputPlace::default()).unwrap();
/// assert_eq!(explanation.name(), "the protocol version");
/// assert_eq!(explanation.head(), Some("#1 l method_call"));
/// assert_eq!(explanation.rule(), "the protocol version is 1 (D-Bus Specification, \"Message Format\")");
/// print!("{explanation}");
/// ```
#[must_use]
pub fn explain(bytes: &[u8], limits: &Limits, place: InputPlace) -> Option<Explanation> {
    let (mut explained, mut told, limits) = (Default::default(), Default::default(), limits.raw());
    let place = sys::dbus_wire_input_place { number: place.number, offset: place.offset };
    let mut lines = vec![0; ROOM];
    loop {
        let (out, room) = (lines.as_mut_ptr(), lines.len());
        // SAFETY: slices and references, as `sys` says.
        match unsafe {
            sys::dbus_wire_explain(
                bytes.as_ptr(),
                bytes.len(),
                &raw const limits,
                &raw const place,
                out,
                room,
                &raw mut explained,
                &raw mut told,
            )
        } {
            sys::DBUS_WIRE_OK => break,
            sys::DBUS_WIRE_NO_ROOM => lines.resize(explained.length as usize + 1, 0),
            _ => return None,
        }
    }
    lines.truncate(explained.length as usize);
    // The library says that the lines are UTF-8.
    Some(Explanation::new(String::from_utf8_lossy(&lines).into_owned(), &explained, &told))
}

/// The header fields and the values of the body that are whole before the fault of bytes that begin
/// with no message within the limits. `None` if they begin with one, or show no fault yet. A field
/// or a value is there if it ends at the fault or before it, and so do all before it.
///
/// ```
/// use dbus_wire::{whole_parts, Limits, Value};
///
/// let bytes = b"l\x01\0\x01\x0b\0\0\0\x07\0\0\0\x28\0\0\0\x01\x01o\0\x02\0\0\0/a\0\0\0\0\0\0\x03\x01s\0\x01\0\0\0D\0\0\0\0\0\0\0\
///     \x08\x01g\0\x02us\0\x07\0\0\0\x02\0\0\0hi\x01";
/// let whole = whole_parts(bytes, &Limits::default()).unwrap();
/// let fields: Vec<_> = whole.fields.collect();
/// assert_eq!(fields, [(1, Value::ObjectPath("/a")), (3, Value::String("D")), (8, Value::Signature("us"))]);
/// // The 0 that ends the STRING is another byte.
/// assert_eq!(whole.body.types(), "u");
/// assert!(whole.body.eq([Value::Uint32(7)]));
/// ```
#[must_use]
pub fn whole_parts<'a>(bytes: &'a [u8], limits: &Limits) -> Option<WholeParts<'a>> {
    WholeParts::before_fault(bytes, limits)
}
