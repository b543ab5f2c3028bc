//! A value that is not of the type that is wanted.

use std::error::Error;
use std::fmt;

use crate::{TooLong, Value};

/// Which value is not of the type that is wanted, and both types. A text that no message has, such
/// as a STRING with U+0000, is refused in the same way: then this says what is wanted, and has the
/// text itself.
///
/// ```
/// use std::collections::BTreeMap;
///
/// use dbus_wire::{spell, Kind, Message, ObjectPath, Order, Parts};
///
/// let bad = spell(Order::Little, (1u32, BTreeMap::from([("Root", ObjectPath("/a/"))]))).unwrap_err();
/// assert_eq!(bad.path, r#"body[1]["Root"]"#);
/// assert_eq!(bad.to_string(), r#"body[1]["Root"]: wanted an OBJECT_PATH, given "/a/": the text is not valid, at byte 3"#);
///
/// # let signal = Parts { path: Some("/"), interface: Some("a.b"), member: Some("C"), ..Parts::new(Kind::Signal, 1) };
/// let bytes = signal.build(("x", 1u32))?;
/// let bad = Message::parse(&bytes)?.body_as::<(String, bool)>().unwrap_err();
/// assert_eq!(bad.to_string(), "body[1]: wanted b, given u");
/// # Ok::<(), Box<dyn std::error::Error>>(())
/// ```
#[derive(Clone, Debug, PartialEq, Eq)]
pub struct BadValue {
    /// The path to the value: a place among the values of a body, the elements of an array or the
    /// fields of a struct as `[0]`, the value of a key as `["Load"]`, a key by the place of its
    /// entry as `.keys[0]`, and what a variant holds as `.value`. It begins with `body` or `value`.
    pub path: String,
    /// The type that is wanted, as a signature, or of a text in words.
    pub wanted: String,
    /// The type of the value, as a signature, or a text, and why it is refused.
    pub given: String,
}

impl BadValue {
    /// Of a value whose path is still empty: each container that it is in puts a step before that.
    pub fn new(wanted: impl Into<String>, given: impl Into<String>) -> Self {
        Self { path: String::new(), wanted: wanted.into(), given: given.into() }
    }

    /// Of a value that is of another type.
    pub(crate) fn of_type(wanted: &str, value: &Value<'_>) -> Self {
        Self::new(wanted, value.signature())
    }

    /// The same, with a step of a container before its path.
    #[must_use]
    pub fn within(mut self, step: impl fmt::Display) -> Self {
        self.path.insert_str(0, &step.to_string());
        self
    }

    /// The same, of the value at this place of another one.
    pub(crate) fn at(self, place: usize) -> Self {
        self.within(format_args!("[{place}]"))
    }
}

impl fmt::Display for BadValue {
    fn fmt(&self, f: &mut fmt::Formatter<'_>) -> fmt::Result {
        let or_none = |types: &str| if types.is_empty() { "no value" } else { types }.to_owned();
        write!(f, "{}: wanted {}, given {}", self.path, or_none(&self.wanted), or_none(&self.given))
    }
}

impl Error for BadValue {}

impl From<TooLong> for BadValue {
    fn from(_: TooLong) -> Self {
        Self::new("a text or an array of at most 4,294,967,295 bytes", "one of more")
    }
}
