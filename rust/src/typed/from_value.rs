//! Values of messages as values of Rust.

use super::{types_in, TypeText, Typed};
use crate::value::split_type;
use crate::{Array, BadValue, Message, Value, Values};

/// A type of Rust as which a value of a message is read: [`Typed`] says which those are.
pub trait FromValue<'a>: Typed + Sized {
    /// The value, which is of this type: [`Message::body_as`] and [`Value::read`] see to that, and
    /// refuse a value of another type before they take any part of it.
    ///
    /// # Errors
    ///
    /// If the value, or one that is within it, has another type.
    fn from_value(value: Value<'a>) -> Result<Self, BadValue>;

    /// What a body without values is read as, if it is read as this type at all.
    #[must_use]
    fn from_nothing() -> Option<Self> {
        None
    }

    /// The elements of an array of this type.
    #[doc(hidden)]
    fn from_array(array: Array<'a>) -> Result<Vec<Self>, BadValue> {
        let element = |(place, value)| Self::from_value(value).map_err(|bad| bad.at(place));
        array.into_iter().enumerate().map(element).collect()
    }
}

/// `None` of a body without values, and `Some` of each other, and of each value.
impl<T: Typed> Typed for Option<T> {
    const TYPE: TypeText = T::TYPE;
}

impl<'a, T: FromValue<'a>> FromValue<'a> for Option<T> {
    fn from_value(value: Value<'a>) -> Result<Self, BadValue> {
        T::from_value(value).map(Some)
    }

    fn from_nothing() -> Option<Self> {
        Some(None)
    }
}

impl<'a> Message<'a> {
    /// The body as a value of Rust: a tuple of its values, or the one value that it has. Texts and
    /// arrays of BYTE may borrow from the message. As an `Option` a body without values is `None`.
    ///
    /// A body of other types than this stands for is refused before any value is taken: the error
    /// has the first type that differs, and the one that is wanted.
    ///
    /// ```
    /// use std::collections::HashMap;
    ///
    /// use dbus_wire::{Kind, Message, Parts, Value};
    ///
    /// # let signal = Parts { path: Some("/"), interface: Some("a.b"), member: Some("C"), ..Parts::new(Kind::Signal, 1) };
    /// let bytes = signal.build(("a.b.Player", HashMap::from([("Volume", Value::from(0.5))]), [""; 0]))?;
    /// let message = Message::parse(&bytes)?;
    /// let (interface, mut changed, gone) = message.body_as::<(&str, HashMap<&str, Value>, Vec<String>)>()?;
    /// let volume: f64 = changed.remove("Volume").ok_or("no volume")?.try_into()?;
    /// assert_eq!((interface, volume, gone.len()), ("a.b.Player", 0.5, 0));
    /// # Ok::<(), Box<dyn std::error::Error>>(())
    /// ```
    ///
    /// # Errors
    ///
    /// If the body has other types than this stands for: the path to a value, and both types.
    pub fn body_as<T: FromValue<'a>>(&self) -> Result<T, BadValue> {
        read_body(self.signature().unwrap_or_default(), || self.body())
    }
}

impl<'a> Values<'a> {
    /// The values of a body, or those of it that are left, as [`Message::body_as`] reads them: of a
    /// message and its body that [`Message::parse_with_body`] reads by one look, this takes no other.
    ///
    /// ```
    /// use dbus_wire::{Kind, Limits, Message, Parts};
    ///
    /// # let signal = Parts { path: Some("/"), interface: Some("a.b"), member: Some("C"), ..Parts::new(Kind::Signal, 1) };
    /// let bytes = signal.build(("x", 1u32))?;
    /// let (message, body) = Message::parse_with_body(&bytes, &Limits::default())?;
    /// assert_eq!((message.member(), body.read::<(&str, u32)>()?), (Some("C"), ("x", 1)));
    /// # Ok::<(), Box<dyn std::error::Error>>(())
    /// ```
    ///
    /// # Errors
    ///
    /// As of [`Message::body_as`].
    pub fn read<T: FromValue<'a>>(self) -> Result<T, BadValue> {
        read_body(self.types(), || self)
    }
}

impl<'a> Value<'a> {
    /// The value as one of Rust: what [`TryFrom`] makes of it. A value of another type than this
    /// stands for is refused before any part of it is taken.
    ///
    /// ```
    /// use dbus_wire::Value;
    ///
    /// assert_eq!(Value::Uint32(7).read::<u32>().unwrap(), 7);
    /// assert_eq!(Value::String("7").read::<u32>().unwrap_err().to_string(), "value: wanted u, given s");
    /// ```
    ///
    /// # Errors
    ///
    /// If the value is of another type.
    pub fn read<T: FromValue<'a>>(self) -> Result<T, BadValue> {
        read_value(self).map_err(|bad| bad.within("value"))
    }
}

// The value, if it is of the type.
pub(super) fn read_value<'a, T: FromValue<'a>>(value: Value<'a>) -> Result<T, BadValue> {
    if !value.is_of(T::signature()) {
        return Err(BadValue::of_type(T::signature(), &value));
    }
    T::from_value(value)
}

// The same of a body that may have no values.
fn read_body<'a, T: FromValue<'a>>(given: &str, body: impl FnOnce() -> Values<'a>) -> Result<T, BadValue> {
    match T::from_nothing() {
        Some(nothing) if given.is_empty() => Ok(nothing),
        _ => read_row(given, body).map_err(|bad| bad.within("body")),
    }
}

// The values of a body of these types, if they are those that stand for it.
fn read_row<'a, T: FromValue<'a>>(given: &str, body: impl FnOnce() -> Values<'a>) -> Result<T, BadValue> {
    let one = T::signature();
    let wanted = types_in(one);
    if wanted != given {
        return Err(bad_types(wanted, given));
    }
    if wanted.len() < one.len() {
        return T::from_value(Value::Struct(body()));
    }
    let value = body().next().expect("a body of one type has one value");
    T::from_value(value).map_err(|bad| bad.at(0))
}

// The first type of two rows that differs, if each has one there.
fn bad_types(wanted: &str, given: &str) -> BadValue {
    let (mut left, mut there) = (wanted, given);
    for place in 0.. {
        let ((one, wanted_after), (other, given_after)) = (split_type(left), split_type(there));
        match (one, other) {
            ("", _) | (_, "") => break,
            (one, other) if one != other => return BadValue::new(one, other).at(place),
            _ => (left, there) = (wanted_after, given_after),
        }
    }
    BadValue::new(wanted, given)
}
