//! `TryFrom` of values, for all types as which values are read but numbers, which have it already.

use std::collections::{BTreeMap, HashMap};
use std::fmt::Debug;
use std::hash::{BuildHasher, Hash};

use super::{FromValue, ObjectPath, Signature, VariantOf};
use crate::{BadValue, Value, Variant};

macro_rules! try_from {
    ($(($($bounds:tt)*) $name:ty;)*) => {$(
        impl<'a, $($bounds)*> TryFrom<Value<'a>> for $name {
            type Error = BadValue;

            fn try_from(value: Value<'a>) -> Result<Self, BadValue> {
                value.read()
            }
        }
    )*};
}

try_from! {
    () &'a str;
    () String;
    (T: From<&'a str>) ObjectPath<T>;
    (T: From<&'a str>) Signature<T>;
    () &'a [u8];
    (T: FromValue<'a>) Vec<T>;
    (K: FromValue<'a> + Debug + Eq + Hash, V: FromValue<'a>, S: BuildHasher + Default) HashMap<K, V, S>;
    (K: FromValue<'a> + Debug + Ord, V: FromValue<'a>) BTreeMap<K, V>;
    () Variant<'a>;
    (T: FromValue<'a>) VariantOf<T>;
    (A: FromValue<'a>) (A,);
    (A: FromValue<'a>, B: FromValue<'a>) (A, B);
    (A: FromValue<'a>, B: FromValue<'a>, C: FromValue<'a>) (A, B, C);
    (A: FromValue<'a>, B: FromValue<'a>, C: FromValue<'a>, D: FromValue<'a>) (A, B, C, D);
}
