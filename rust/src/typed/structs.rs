//! Structs of Rust as structs and dictionaries of D-Bus.

use std::collections::HashMap;

use super::containers::put_array;
use super::from_value::read_value;
use super::{FromValue, ToValue, VariantOf};
use crate::{BadValue, Body, Value};

/// Declares a struct that stands for a STRUCT of its fields, one to twelve, or as a body for all of
/// its values, as a tuple of them does. Of lifetimes it may have one.
///
/// ```
/// use dbus_wire::{structure, Kind, Message, Parts, Typed};
///
/// structure! {
///     /// A change of a name's owner.
///     #[derive(Debug, PartialEq)]
///     pub struct OwnerChanged<'a> {
///         pub name: &'a str,
///         pub old: &'a str,
///         pub new: &'a str,
///     }
/// }
///
/// let changed = OwnerChanged { name: "a.b", old: "", new: ":1.7" };
/// # let signal = Parts { path: Some("/"), interface: Some("a.b"), member: Some("C"), ..Parts::new(Kind::Signal, 1) };
/// let bytes = signal.build(&changed)?;
/// assert_eq!(Message::parse(&bytes)?.body_as::<OwnerChanged>()?, changed);
/// assert_eq!(OwnerChanged::signature(), "(sss)");
/// # Ok::<(), Box<dyn std::error::Error>>(())
/// ```
#[macro_export]
macro_rules! structure {
    (@of [$($generics:tt)*] $value:lifetime $name:ident $($field:ident: $type:ty),+) => {
        impl $($generics)* $crate::Typed for $name $($generics)* {
            const TYPE: $crate::TypeText = <($($type,)+) as $crate::Typed>::TYPE;
        }

        impl<$value> $crate::FromValue<$value> for $name $($generics)* {
            fn from_value(value: $crate::Value<$value>) -> ::std::result::Result<Self, $crate::BadValue> {
                let ($($field,)+) = $crate::FromValue::from_value(value)?;
                ::std::result::Result::Ok(Self { $($field),+ })
            }
        }

        impl $($generics)* $crate::ToValue for $name $($generics)* {
            fn put(&self, body: &mut $crate::Body) -> ::std::result::Result<(), $crate::BadValue> {
                $crate::ToValue::put(&($(&self.$field,)+), body)
            }
        }
    };
    (
        $(#[$attribute:meta])* $public:vis struct $name:ident $(<$lifetime:lifetime>)? {
            $($(#[$of_field:meta])* $shown:vis $field:ident: $type:ty),+ $(,)?
        }
    ) => {
        $(#[$attribute])* $public struct $name $(<$lifetime>)? {
            $($(#[$of_field])* $shown $field: $type,)+
        }

        $crate::with_lifetime! { [$crate::structure] [$($lifetime)?] $name $($field: $type),+ }
    };
}

/// Declares a struct that stands for a dictionary, `a{sv}`: each field for the entry of the key that
/// is written after it. A field that is an `Option` may be absent; of another one the entry has to be
/// there. Entries with other keys are passed over. Of lifetimes the struct may have one.
///
/// ```
/// use std::collections::HashMap;
///
/// use dbus_wire::{dictionary, AnyVariant, Kind, Message, Parts};
///
/// dictionary! {
///     #[derive(Debug, PartialEq)]
///     struct Song {
///         title: String = "xesam:title",
///         artists: Vec<String> = "xesam:artist",
///         length: Option<i64> = "mpris:length",
///     }
/// }
///
/// # let signal = Parts { path: Some("/"), interface: Some("a.b"), member: Some("C"), ..Parts::new(Kind::Signal, 1) };
/// let song = Song { title: "a".into(), artists: vec!["b".into()], length: None };
/// assert_eq!(Message::parse(&signal.build(&song)?)?.body_as::<Song>()?, song);
/// let bytes = signal.build(HashMap::from([("xesam:title", AnyVariant::new("a"))]))?;
/// let bad = Message::parse(&bytes)?.body_as::<Song>().unwrap_err();
/// assert_eq!(bad.to_string(), r#"body[0]["xesam:artist"]: wanted as, given no value"#);
/// # Ok::<(), Box<dyn std::error::Error>>(())
/// ```
#[macro_export]
macro_rules! dictionary {
    (@of [$($generics:tt)*] $value:lifetime $name:ident $($field:ident = $key:literal),+) => {
        impl $($generics)* $crate::Typed for $name $($generics)* {
            const TYPE: $crate::TypeText = $crate::typed_structs::DICTIONARY;
        }

        impl<$value> $crate::FromValue<$value> for $name $($generics)* {
            fn from_value(value: $crate::Value<$value>) -> ::std::result::Result<Self, $crate::BadValue> {
                let mut entries = $crate::typed_structs::entries(value)?;
                ::std::result::Result::Ok(Self { $($field: $crate::typed_structs::read_entry(&mut entries, $key)?),+ })
            }
        }

        impl $($generics)* $crate::ToValue for $name $($generics)* {
            fn put(&self, body: &mut $crate::Body) -> ::std::result::Result<(), $crate::BadValue> {
                $crate::typed_structs::put_dictionary(body, |body| {
                    $($crate::typed_structs::EntryValue::put_entry(&self.$field, $key, body)?;)+
                    ::std::result::Result::Ok(())
                })
            }
        }
    };
    (
        $(#[$attribute:meta])* $public:vis struct $name:ident $(<$lifetime:lifetime>)? {
            $($(#[$of_field:meta])* $shown:vis $field:ident: $type:ty = $key:literal),+ $(,)?
        }
    ) => {
        $(#[$attribute])* $public struct $name $(<$lifetime>)? {
            $($(#[$of_field])* $shown $field: $type,)+
        }

        $crate::with_lifetime! { [$crate::dictionary] [$($lifetime)?] $name $($field = $key),+ }
    };
}

// Calls the macro with the struct's lifetime, or with one that it does not have.
#[doc(hidden)]
#[macro_export]
macro_rules! with_lifetime {
    ([$($call:tt)+] [] $($of:tt)*) => { $($call)+! { @of [] 'value $($of)* } };
    ([$($call:tt)+] [$lifetime:lifetime] $($of:tt)*) => { $($call)+! { @of [<$lifetime>] $lifetime $($of)* } };
}

/// What the macros call.
#[doc(hidden)]
pub mod typed_structs {
    use super::{put_array, read_value, BadValue, Body, FromValue, HashMap, ToValue, Value, VariantOf};
    use crate::{TypeText, Typed};

    pub type Entries<'a> = HashMap<&'a str, Value<'a>>;

    pub const DICTIONARY: TypeText = Entries::TYPE;

    pub fn entries(value: Value<'_>) -> Result<Entries<'_>, BadValue> {
        FromValue::from_value(value)
    }

    pub fn read_entry<'a, T: FromValue<'a>>(entries: &mut Entries<'a>, key: &str) -> Result<T, BadValue> {
        let read = match entries.remove(key) {
            Some(value) => read_value(value).map_err(|bad| bad.within(".value")),
            None => T::from_nothing().ok_or_else(|| BadValue::new(T::signature(), "")),
        };
        read.map_err(|bad| bad.within(format_args!("[{key:?}]")))
    }

    pub fn put_dictionary(body: &mut Body, entries: impl FnOnce(&mut Body) -> Result<(), BadValue>) -> Result<(), BadValue> {
        put_array("{", body, entries)
    }

    pub trait EntryValue {
        fn put_entry(&self, key: &str, body: &mut Body) -> Result<(), BadValue>;
    }

    impl<T: ToValue> EntryValue for T {
        fn put_entry(&self, key: &str, body: &mut Body) -> Result<(), BadValue> {
            body.begin_struct();
            key.put(body)?;
            VariantOf(self).put(body).map_err(|bad| bad.within(format_args!("[{key:?}]")))
        }
    }

    impl<T: ToValue> EntryValue for Option<T> {
        fn put_entry(&self, key: &str, body: &mut Body) -> Result<(), BadValue> {
            self.as_ref().map_or(Ok(()), |value| value.put_entry(key, body))
        }
    }
}
