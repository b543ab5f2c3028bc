//! Numbers and BOOLEANs.

use super::{FromValue, ToValue, TypeText, Typed};
use crate::{Array, BadValue, Body, Order, Value};

/// A UNIX_FD: an index of a file descriptor of the message.
#[derive(Clone, Copy, Debug, Default, PartialEq, Eq, Hash, PartialOrd, Ord)]
pub struct UnixFd(pub u32);

// Of each type its code, its variant of `Value`, how the type is made of that number and that of the
// type, and the call of `Body` that puts it. `$own` are further methods of the two traits.
macro_rules! basics {
    ($($name:ident $code:literal $variant:ident $made:expr, $number:expr, $put:ident [$($read:item)?] [$($own:item)?];)*) => {$(
        impl Typed for $name {
            const TYPE: TypeText = TypeText::basic($code);
        }

        impl<'a> FromValue<'a> for $name {
            fn from_value(value: Value<'a>) -> Result<Self, BadValue> {
                match value {
                    Value::$variant(number) => Ok($made(number)),
                    other => Err(BadValue::of_type(Self::signature(), &other)),
                }
            }

            $($read)?
        }

        impl ToValue for $name {
            fn put(&self, body: &mut Body) -> Result<(), BadValue> {
                body.$put($number(*self));
                Ok(())
            }

            $($own)?
        }

        impl From<$name> for Value<'_> {
            fn from(value: $name) -> Self {
                Value::$variant($number(value))
            }
        }

        impl<'a> TryFrom<Value<'a>> for $name {
            type Error = BadValue;

            fn try_from(value: Value<'a>) -> Result<Self, BadValue> {
                value.read()
            }
        }
    )*};
}

// Numbers of which any bytes are one: those of an array are copied at once.
macro_rules! numbers {
    ($($name:ident $code:literal $variant:ident $put:ident;)*) => {$(
        basics! {
            $name $code $variant same, same, $put [
                fn from_array(array: Array<'a>) -> Result<Vec<Self>, BadValue> {
                    match array.numbers(Self::signature()) {
                        Some((Order::Little, numbers)) => Ok(numbers.map(Self::from_le_bytes).collect()),
                        Some((Order::Big, numbers)) => Ok(numbers.map(Self::from_be_bytes).collect()),
                        None => Err(BadValue::of_type(Vec::<Self>::signature(), &Value::Array(array))),
                    }
                }
            ] [
                fn put_elements(elements: &[Self], body: &mut Body) -> Result<(), BadValue> {
                    match body.order() {
                        Order::Little => body.numbers_of_array(elements, Self::to_le_bytes),
                        Order::Big => body.numbers_of_array(elements, Self::to_be_bytes),
                    }
                    Ok(())
                }
            ];
        }
    )*};
}

fn same<T>(number: T) -> T {
    number
}

numbers! {
    u8 b'y' Byte byte;
    i16 b'n' Int16 int16;
    u16 b'q' Uint16 uint16;
    i32 b'i' Int32 int32;
    u32 b'u' Uint32 uint32;
    i64 b'x' Int64 int64;
    u64 b't' Uint64 uint64;
    f64 b'd' Double double;
}

basics! {
    bool b'b' Boolean same, same, boolean [] [];
    UnixFd b'h' UnixFd UnixFd, index_of, uint32 [] [];
}

fn index_of(fd: UnixFd) -> u32 {
    fd.0
}
