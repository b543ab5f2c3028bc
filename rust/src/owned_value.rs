//! A value that borrows nothing.

use std::fmt;
use std::num::NonZeroU32;
use std::sync::Arc;

use crate::{
    BadValue, Body, FlatItem, FromValue, Kind, MakeError, OwnedMessage, Parts, ToValue, TypeText, Typed, Value, Values, VariantOf,
};

/// A value of any type that borrows nothing, so that it may be kept after its message. It stands for
/// a VARIANT, as [`Value`] does, and [`value`](Self::value) is the value in it.
///
/// ```
/// use std::collections::HashMap;
///
/// use dbus_wire::{Kind, Message, OwnedValue, Parts, Value};
///
/// # let signal = Parts { path: Some("/"), interface: Some("a.b"), member: Some("C"), ..Parts::new(Kind::Signal, 1) };
/// let bytes = signal.build(HashMap::from([("Names", OwnedValue::new(["a", "b"])?)]))?;
/// let properties: HashMap<String, OwnedValue> = Message::parse(&bytes)?.body_as()?;
/// drop(bytes);
/// assert_eq!(properties["Names"].value().read::<Vec<&str>>()?, ["a", "b"]);
/// # Ok::<(), Box<dyn std::error::Error>>(())
/// ```
#[derive(Clone)]
pub struct OwnedValue {
    // A message whose body is a VARIANT of the value, and the items of that body.
    message: OwnedMessage,
    items: Arc<[FlatItem]>,
}

impl OwnedValue {
    /// The value of which this is made, of its type.
    ///
    /// # Errors
    ///
    /// If no message has the value, as [`Parts::build`] says.
    pub fn new(value: impl ToValue) -> Result<Self, MakeError> {
        Self::of_variant(VariantOf(value))
    }

    /// The value.
    #[must_use]
    pub fn value(&self) -> Value<'_> {
        let mut body = Values::of_items(self.message.bytes(), self.items.clone(), "v");
        let Some(Value::Variant(held)) = body.next() else { unreachable!("the body is a variant") };
        held.into_value()
    }

    // Of what is put as a VARIANT.
    fn of_variant(variant: impl ToValue) -> Result<Self, MakeError> {
        let parts = Parts { reply_serial: Some(NonZeroU32::MIN), ..Parts::new(Kind::MethodReturn, 1) };
        let message = OwnedMessage::known(parts.build(variant)?);
        let items = message.flatten().into();
        Ok(Self { message, items })
    }
}

impl TryFrom<Value<'_>> for OwnedValue {
    type Error = MakeError;

    fn try_from(value: Value<'_>) -> Result<Self, MakeError> {
        Self::of_variant(value)
    }
}

impl Typed for OwnedValue {
    const TYPE: TypeText = Value::TYPE;
}

/// A copy of the value in a variant.
impl<'a> FromValue<'a> for OwnedValue {
    fn from_value(value: Value<'a>) -> Result<Self, BadValue> {
        Self::of_variant(Value::from_value(value)?).map_err(|error| match error {
            MakeError::BadValue(bad) => bad,
            MakeError::Build(error) => BadValue::new("a VARIANT that a message may have", error.to_string()),
        })
    }
}

impl ToValue for OwnedValue {
    fn put(&self, body: &mut Body) -> Result<(), BadValue> {
        self.value().put(body)
    }
}

impl PartialEq for OwnedValue {
    fn eq(&self, other: &Self) -> bool {
        self.value() == other.value()
    }
}

impl fmt::Debug for OwnedValue {
    fn fmt(&self, f: &mut fmt::Formatter<'_>) -> fmt::Result {
        self.value().fmt(f)
    }
}
