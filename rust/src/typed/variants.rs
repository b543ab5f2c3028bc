//! Variants, of a type that is known or of any.

use std::fmt;

use super::containers::put_array;
use super::from_value::read_value;
use super::texts::put_text;
use super::{FromValue, ToValue, TypeText, Typed};
use crate::{BadValue, Body, TextKind, Value, Values, Variant};

// Puts a variant of this type, whose value the function puts.
fn put_variant(signature: &str, body: &mut Body, value: impl FnOnce(&mut Body) -> Result<(), BadValue>) -> Result<(), BadValue> {
    put_text(TextKind::SingleType, signature, body).map_err(|bad| bad.within(".signature"))?;
    value(body).map_err(|bad| bad.within(".value"))
}

// Puts a value as one of its own type.
fn put_value(value: Value<'_>, body: &mut Body) -> Result<(), BadValue> {
    match value {
        Value::Byte(number) => number.put(body),
        Value::Boolean(so) => so.put(body),
        Value::Int16(number) => number.put(body),
        Value::Uint16(number) => number.put(body),
        Value::Int32(number) => number.put(body),
        Value::Uint32(number) | Value::UnixFd(number) => number.put(body),
        Value::Int64(number) => number.put(body),
        Value::Uint64(number) => number.put(body),
        Value::Double(number) => number.put(body),
        Value::String(text) => put_text(TextKind::String, text, body),
        Value::ObjectPath(text) => put_text(TextKind::ObjectPath, text, body),
        Value::Signature(text) => put_text(TextKind::Signature, text, body),
        Value::Array(array) => put_array(array.element_type(), body, |body| match array.spelled(body.order()) {
            Some(numbers) => {
                body.bytes_of_array(numbers);
                Ok(())
            }
            None => put_values(array.elements(), body),
        }),
        Value::Struct(fields) => {
            body.begin_struct();
            put_values(fields, body)
        }
        Value::Entry(entry) => {
            body.begin_struct();
            put_values(entry.parts(), body)
        }
        Value::Variant(held) => held.put(body),
    }
}

fn put_values(values: Values<'_>, body: &mut Body) -> Result<(), BadValue> {
    values.enumerate().try_for_each(|(place, value)| put_value(value, body).map_err(|bad| bad.at(place)))
}

/// A VARIANT that holds a T. It is read if the value in the variant is of that type.
///
/// ```
/// use std::collections::HashMap;
///
/// use dbus_wire::{Kind, Message, Parts, VariantOf};
///
/// let signal = Parts { path: Some("/"), interface: Some("a.b"), member: Some("C"), ..Parts::new(Kind::Signal, 1) };
/// let bytes = signal.build(HashMap::from([("Load", VariantOf(0.5))]))?;
/// let message = Message::parse(&bytes)?;
/// assert_eq!(message.body_as::<HashMap<String, VariantOf<f64>>>()?["Load"], VariantOf(0.5));
/// let bad = message.body_as::<HashMap<String, VariantOf<u32>>>().unwrap_err();
/// assert_eq!(bad.to_string(), r#"body[0]["Load"].value: wanted u, given d"#);
/// # Ok::<(), Box<dyn std::error::Error>>(())
/// ```
#[derive(Clone, Copy, Debug, Default, PartialEq, Eq, Hash, PartialOrd, Ord)]
pub struct VariantOf<T>(pub T);

impl<'a, T: FromValue<'a>> FromValue<'a> for VariantOf<T> {
    fn from_value(value: Value<'a>) -> Result<Self, BadValue> {
        let held = Value::from_value(value)?;
        read_value(held).map(Self).map_err(|bad| bad.within(".value"))
    }
}

impl<T: ToValue> ToValue for VariantOf<T> {
    fn put(&self, body: &mut Body) -> Result<(), BadValue> {
        put_variant(T::signature(), body, |body| self.0.put(body))
    }
}

/// A VARIANT to be put, which holds a value of any type: so that one map or array has values of
/// several. [`VariantOf`] is of one type, and a [`Value`] of a number or a text.
///
/// ```
/// use std::collections::BTreeMap;
///
/// use dbus_wire::{spell, AnyVariant, Order};
///
/// let song = BTreeMap::from([("artists", AnyVariant::new(["a", "b"])), ("length", AnyVariant::new(7u64))]);
/// assert_eq!(spell(Order::Little, song)?.signature(), Some("a{sv}"));
/// # Ok::<(), dbus_wire::BadValue>(())
/// ```
pub struct AnyVariant<'a>(Box<dyn Held + 'a>);

impl<'a> AnyVariant<'a> {
    /// A variant of the value.
    pub fn new(value: impl ToValue + 'a) -> Self {
        Self(Box::new(VariantOf(value)))
    }
}

// What puts itself as a variant.
trait Held {
    fn put_held(&self, body: &mut Body) -> Result<(), BadValue>;

    fn held_type(&self) -> &'static str;
}

impl<T: ToValue> Held for VariantOf<T> {
    fn put_held(&self, body: &mut Body) -> Result<(), BadValue> {
        self.put(body)
    }

    fn held_type(&self) -> &'static str {
        T::signature()
    }
}

impl ToValue for AnyVariant<'_> {
    fn put(&self, body: &mut Body) -> Result<(), BadValue> {
        self.0.put_held(body)
    }
}

impl fmt::Debug for AnyVariant<'_> {
    fn fmt(&self, f: &mut fmt::Formatter<'_>) -> fmt::Result {
        f.debug_tuple("AnyVariant").field(&self.0.held_type()).finish()
    }
}

/// The value in a variant.
impl<'a> FromValue<'a> for Value<'a> {
    fn from_value(value: Value<'a>) -> Result<Self, BadValue> {
        Variant::from_value(value).map(Variant::into_value)
    }
}

impl ToValue for Value<'_> {
    fn put(&self, body: &mut Body) -> Result<(), BadValue> {
        put_variant(&self.signature(), body, |body| put_value(self.clone(), body))
    }
}

impl<'a> FromValue<'a> for Variant<'a> {
    fn from_value(value: Value<'a>) -> Result<Self, BadValue> {
        match value {
            Value::Variant(held) => Ok(held),
            other => Err(BadValue::of_type(<Self as Typed>::signature(), &other)),
        }
    }
}

impl ToValue for Variant<'_> {
    fn put(&self, body: &mut Body) -> Result<(), BadValue> {
        self.value().put(body)
    }
}

macro_rules! variants {
    ($(($($parameter:tt)*) $name:ty;)*) => {$(
        impl<$($parameter)*> Typed for $name {
            const TYPE: TypeText = TypeText::basic(b'v');
        }
    )*};
}

variants! {
    () Value<'_>;
    () Variant<'_>;
    () AnyVariant<'_>;
    (T) VariantOf<T>;
}
