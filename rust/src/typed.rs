//! Values of Rust as values of messages, and the other way.

mod basics;
mod containers;
mod from_value;
mod making;
mod spelling;
mod structs;
mod texts;
mod to_value;
mod try_from;
mod tuples;
mod type_text;
mod variants;

pub use from_value::FromValue;
pub use making::MakeError;
pub use spelling::{spell, Spelled};
#[doc(hidden)]
pub use structs::typed_structs;
pub use texts::{ObjectPath, Signature};
pub use to_value::ToValue;
pub use type_text::TypeText;
pub use variants::{AnyVariant, VariantOf};

pub use basics::UnixFd;

/// A type of Rust that stands for a type of D-Bus.
///
/// | of Rust | of D-Bus | |
/// | --- | --- | --- |
/// | `u8` `bool` `i16` `u16` `i32` `u32` `i64` `u64` `f64` | `y` `b` `n` `q` `i` `u` `x` `t` `d` | |
/// | [`UnixFd`] | `h` | |
/// | `&str`, `String` | `s` | |
/// | [`ObjectPath`], [`Signature`], of either | `o` `g` | |
/// | `Vec<T>`, `&[T]`, `[T; N]` | `a` of T | to read, only `Vec<T>` and `&[u8]` |
/// | `HashMap<K, V>`, `BTreeMap<K, V>` | `a{..}` of K and V | |
/// | a tuple | `(..)` of its types | of up to twelve |
/// | [`Value`](crate::Value), [`Variant`](crate::Variant) | `v` | of a `Value`, the value in it |
/// | [`OwnedValue`](crate::OwnedValue) | `v` | a copy of the value in it, which may be kept |
/// | [`VariantOf<T>`] | `v` | that holds a T |
/// | [`AnyVariant`] | `v` | only to put |
/// | `Option<T>` | that of T | only to read, `None` of a body without values |
///
/// As a body a tuple is all of its values, and no struct: the signature of `("x", 1u32)` is `su`,
/// and that of `(("x", 1u32),)` is `(su)`. A value of another type is a body of that value alone,
/// and `()` is one of none. Of entries with one key a map has the last;
/// [`Message::body`](crate::Message::body) has all.
///
/// ```
/// use std::collections::HashMap;
///
/// use dbus_wire::{Typed, Value};
///
/// assert_eq!(HashMap::<&str, Value>::signature(), "a{sv}");
/// assert_eq!(<(String, Vec<(i32, &[u8])>)>::signature(), "(sa(iay))");
/// ```
///
/// A struct of yours stands for a STRUCT if [`structure!`](crate::structure) declares it, and for a
/// dictionary if [`dictionary!`](crate::dictionary) does. Another type stands for what one of these
/// does, if its impls say so:
///
/// ```
/// use dbus_wire::{BadValue, Body, FromValue, ToValue, TypeText, Typed, Value};
///
/// struct Celsius(f64);
///
/// impl Typed for Celsius {
///     const TYPE: TypeText = f64::TYPE;
/// }
///
/// impl<'a> FromValue<'a> for Celsius {
///     fn from_value(value: Value<'a>) -> Result<Self, BadValue> {
///         FromValue::from_value(value).map(Self)
///     }
/// }
///
/// impl ToValue for Celsius {
///     fn put(&self, body: &mut Body) -> Result<(), BadValue> {
///         self.0.put(body)
///     }
/// }
///
/// assert_eq!(Vec::<Celsius>::signature(), "ad");
/// ```
pub trait Typed {
    /// The one complete type.
    const TYPE: TypeText;

    /// The type, as a signature of one complete type.
    #[must_use]
    fn signature() -> &'static str {
        const { &Self::TYPE }.as_str()
    }
}

impl<T: Typed + ?Sized> Typed for &T {
    const TYPE: TypeText = T::TYPE;
}

/// The types of the values of a body, by the type that stands for it: of a struct those of its
/// fields.
pub(crate) fn types_in(signature: &str) -> &str {
    signature.strip_prefix('(').and_then(|types| types.strip_suffix(')')).unwrap_or(signature)
}
