//! Tuples, each as a struct, or as all values of a body.

use super::{FromValue, ToValue, TypeText, Typed};
use crate::{BadValue, Body, Value, Values};

// The fields of the struct that a value is.
fn fields_of<T: Typed>(value: Value<'_>) -> Result<Values<'_>, BadValue> {
    match value {
        Value::Struct(fields) => Ok(fields),
        other => Err(BadValue::of_type(T::signature(), &other)),
    }
}

// The next field of a struct, at this place.
fn field<'a, T: FromValue<'a>>(fields: &mut Values<'a>, place: usize) -> Result<T, BadValue> {
    let read = fields.next().map(T::from_value);
    read.unwrap_or_else(|| Err(BadValue::new(T::signature(), ""))).map_err(|bad| bad.at(place))
}

/// No values, as a body. No struct has none, so no value is of this type.
impl Typed for () {
    const TYPE: TypeText = TypeText::structure(&[]);
}

impl<'a> FromValue<'a> for () {
    fn from_value(value: Value<'a>) -> Result<Self, BadValue> {
        fields_of::<Self>(value).map(drop)
    }
}

impl ToValue for () {
    fn put(&self, _: &mut Body) -> Result<(), BadValue> {
        Ok(())
    }
}

macro_rules! tuples {
    ($(($($name:ident $at:tt),+))*) => {$(
        impl<$($name: Typed),+> Typed for ($($name,)+) {
            const TYPE: TypeText = TypeText::structure(&[$($name::TYPE),+]);
        }

        impl<'a, $($name: FromValue<'a>),+> FromValue<'a> for ($($name,)+) {
            fn from_value(value: Value<'a>) -> Result<Self, BadValue> {
                let mut fields = fields_of::<Self>(value)?;
                Ok(($(field::<$name>(&mut fields, $at)?,)+))
            }
        }

        impl<$($name: ToValue),+> ToValue for ($($name,)+) {
            fn put(&self, body: &mut Body) -> Result<(), BadValue> {
                body.begin_struct();
                $(self.$at.put(body).map_err(|bad| bad.at($at))?;)+
                Ok(())
            }
        }
    )*};
}

tuples! {
    (A 0)
    (A 0, B 1)
    (A 0, B 1, C 2)
    (A 0, B 1, C 2, D 3)
    (A 0, B 1, C 2, D 3, E 4)
    (A 0, B 1, C 2, D 3, E 4, F 5)
    (A 0, B 1, C 2, D 3, E 4, F 5, G 6)
    (A 0, B 1, C 2, D 3, E 4, F 5, G 6, H 7)
    (A 0, B 1, C 2, D 3, E 4, F 5, G 6, H 7, I 8)
    (A 0, B 1, C 2, D 3, E 4, F 5, G 6, H 7, I 8, J 9)
    (A 0, B 1, C 2, D 3, E 4, F 5, G 6, H 7, I 8, J 9, K 10)
    (A 0, B 1, C 2, D 3, E 4, F 5, G 6, H 7, I 8, J 9, K 10, L 11)
}
