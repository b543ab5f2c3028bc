//! STRINGs, OBJECT_PATHs and SIGNATUREs.

use super::{FromValue, ToValue, TypeText, Typed};
use crate::{check_text, BadValue, Body, TextKind, Value};

/// An OBJECT_PATH, as `ObjectPath("/a/b")`. It is read as such a text; one to be put is checked
/// then.
#[derive(Clone, Copy, Debug, Default, PartialEq, Eq, Hash, PartialOrd, Ord)]
pub struct ObjectPath<T>(pub T);

/// A SIGNATURE, the codes of zero or more complete types, as `Signature("a{sv}")`. It is read as
/// such a text; one to be put is checked then.
#[derive(Clone, Copy, Debug, Default, PartialEq, Eq, Hash, PartialOrd, Ord)]
pub struct Signature<T>(pub T);

// Puts a text, if it is one of the kind.
pub(super) fn put_text(kind: TextKind, text: &str, body: &mut Body) -> Result<(), BadValue> {
    let wanted = match kind {
        TextKind::ObjectPath => "an OBJECT_PATH",
        TextKind::Signature => "a SIGNATURE",
        TextKind::SingleType => "a SIGNATURE of one complete type",
        _ => "a STRING, UTF-8 without U+0000",
    };
    check_text(kind, text.as_bytes()).map_err(|fault| BadValue::new(wanted, format!("{text:?}: {fault}")))?;
    match kind {
        TextKind::Signature | TextKind::SingleType => Ok(body.signature(text)?),
        _ => Ok(body.text(text)?),
    }
}

impl Typed for str {
    const TYPE: TypeText = TypeText::basic(b's');
}

impl ToValue for str {
    fn put(&self, body: &mut Body) -> Result<(), BadValue> {
        put_text(TextKind::String, self, body)
    }
}

impl Typed for String {
    const TYPE: TypeText = str::TYPE;
}

impl ToValue for String {
    fn put(&self, body: &mut Body) -> Result<(), BadValue> {
        self.as_str().put(body)
    }
}

impl<'a> FromValue<'a> for &'a str {
    fn from_value(value: Value<'a>) -> Result<Self, BadValue> {
        match value {
            Value::String(text) => Ok(text),
            other => Err(BadValue::of_type(Self::signature(), &other)),
        }
    }
}

impl<'a> FromValue<'a> for String {
    fn from_value(value: Value<'a>) -> Result<Self, BadValue> {
        <&str>::from_value(value).map(str::to_owned)
    }
}

impl<'a> From<&'a str> for Value<'a> {
    fn from(text: &'a str) -> Self {
        Value::String(text)
    }
}

// The types of texts that are in a type of their own.
macro_rules! texts {
    ($($name:ident $code:literal;)*) => {$(
        impl<T> Typed for $name<T> {
            const TYPE: TypeText = TypeText::basic($code);
        }

        impl<'a, T: From<&'a str>> FromValue<'a> for $name<T> {
            fn from_value(value: Value<'a>) -> Result<Self, BadValue> {
                match value {
                    Value::$name(text) => Ok(Self(text.into())),
                    other => Err(BadValue::of_type(Self::signature(), &other)),
                }
            }
        }

        impl<T: AsRef<str>> ToValue for $name<T> {
            fn put(&self, body: &mut Body) -> Result<(), BadValue> {
                put_text(TextKind::$name, self.0.as_ref(), body)
            }
        }

        impl<'a> From<$name<&'a str>> for Value<'a> {
            fn from(text: $name<&'a str>) -> Self {
                Value::$name(text.0)
            }
        }
    )*};
}

texts! {
    ObjectPath b'o';
    Signature b'g';
}
