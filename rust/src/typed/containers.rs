//! Arrays, and those of dict entries as maps.

use std::collections::{BTreeMap, HashMap};
use std::fmt::Debug;
use std::hash::{BuildHasher, Hash};

use super::{FromValue, ToValue, TypeText, Typed};
use crate::value::width;
use crate::{Array, BadValue, Body, Value};

// What a type that begins with this code is aligned to.
pub(super) fn alignment(code: u8) -> u32 {
    match code {
        b's' | b'o' | b'a' => 4,
        b'g' | b'v' => 1,
        code => width(code).map_or(8, |width| width as u32),
    }
}

// Puts an array whose elements have a type that begins so, and are put by the function.
pub(super) fn put_array(
    element: &str,
    body: &mut Body,
    elements: impl FnOnce(&mut Body) -> Result<(), BadValue>,
) -> Result<(), BadValue> {
    let array = body.open_array(alignment(element.as_bytes()[0]))?;
    elements(body)?;
    Ok(body.close_array(&array)?)
}

// The array that a value is.
fn array_of<T: Typed>(value: Value<'_>) -> Result<Array<'_>, BadValue> {
    match value {
        Value::Array(array) => Ok(array),
        other => Err(BadValue::of_type(T::signature(), &other)),
    }
}

impl<T: Typed> Typed for [T] {
    const TYPE: TypeText = TypeText::array(T::TYPE);
}

impl<T: ToValue> ToValue for [T] {
    fn put(&self, body: &mut Body) -> Result<(), BadValue> {
        put_array(T::signature(), body, |body| T::put_elements(self, body))
    }
}

impl<'a> FromValue<'a> for &'a [u8] {
    fn from_value(value: Value<'a>) -> Result<Self, BadValue> {
        let array = array_of::<Self>(value)?;
        array.bytes().ok_or_else(|| BadValue::of_type(Self::signature(), &Value::Array(array)))
    }
}

impl<T: Typed, const N: usize> Typed for [T; N] {
    const TYPE: TypeText = <[T]>::TYPE;
}

impl<T: ToValue, const N: usize> ToValue for [T; N] {
    fn put(&self, body: &mut Body) -> Result<(), BadValue> {
        self.as_slice().put(body)
    }
}

impl<T: Typed> Typed for Vec<T> {
    const TYPE: TypeText = <[T]>::TYPE;
}

impl<T: ToValue> ToValue for Vec<T> {
    fn put(&self, body: &mut Body) -> Result<(), BadValue> {
        self.as_slice().put(body)
    }
}

impl<'a, T: FromValue<'a>> FromValue<'a> for Vec<T> {
    fn from_value(value: Value<'a>) -> Result<Self, BadValue> {
        T::from_array(array_of::<Self>(value)?)
    }
}

// Puts the entries of a map.
fn put_entries<'m, K, V>(entries: impl Iterator<Item = (&'m K, &'m V)>, body: &mut Body) -> Result<(), BadValue>
where
    K: ToValue + Debug + 'm,
    V: ToValue + 'm,
{
    put_array("{", body, |body| {
        entries.enumerate().try_for_each(|(place, (key, value))| {
            body.begin_struct();
            key.put(body).map_err(|bad| bad.within(format_args!(".keys[{place}]")))?;
            value.put(body).map_err(|bad| bad.within(format_args!("[{key:?}]")))
        })
    })
}

// The entries of an array, as a map.
fn read_entries<'a, K, V, M>(value: Value<'a>) -> Result<M, BadValue>
where
    K: FromValue<'a> + Debug,
    V: FromValue<'a>,
    M: Typed + FromIterator<(K, V)>,
{
    let read = |(place, value)| match value {
        Value::Entry(entry) => {
            let (key, value) = entry.into_parts();
            let key = K::from_value(key).map_err(|bad| bad.within(format_args!(".keys[{place}]")))?;
            let value = V::from_value(value).map_err(|bad| bad.within(format_args!("[{key:?}]")))?;
            Ok((key, value))
        }
        other => Err(BadValue::of_type(TypeText::entry(K::TYPE, V::TYPE).as_str(), &other).at(place)),
    };
    array_of::<M>(value)?.into_iter().enumerate().map(read).collect()
}

// Maps, and what they want of their keys. Of entries with the same key the last one counts.
macro_rules! maps {
    ($($map:ident [$($keys:ident),+] [$($hasher:ident)?] [$($made:ident)?];)*) => {$(
        impl<K: Typed, V: Typed $(, $hasher)?> Typed for $map<K, V $(, $hasher)?> {
            const TYPE: TypeText = TypeText::array(TypeText::entry(K::TYPE, V::TYPE));
        }

        impl<K: ToValue + Debug, V: ToValue $(, $hasher)?> ToValue for $map<K, V $(, $hasher)?> {
            fn put(&self, body: &mut Body) -> Result<(), BadValue> {
                put_entries(self.iter(), body)
            }
        }

        impl<'a, K: FromValue<'a> + Debug $(+ $keys)+, V: FromValue<'a> $(, $hasher: BuildHasher + $made)?> FromValue<'a>
            for $map<K, V $(, $hasher)?>
        {
            fn from_value(value: Value<'a>) -> Result<Self, BadValue> {
                read_entries(value)
            }
        }
    )*};
}

maps! {
    HashMap [Eq, Hash] [S] [Default];
    BTreeMap [Ord] [] [];
}
