//! The values of a message's body.

use std::fmt;
use std::iter::FusedIterator;
use std::ops::Range;
use std::sync::Arc;

use crate::{sys, FlatItem, Limits, Order};

/// The text of a message at a place among its bytes.
///
/// # Safety
///
/// The bytes there are UTF-8.
pub(crate) unsafe fn text_at(bytes: &[u8], offset: u64, length: u64) -> &str {
    let text = bytes_at(bytes, offset, length);
    debug_assert!(std::str::from_utf8(text).is_ok());
    // SAFETY: the caller says so.
    unsafe { std::str::from_utf8_unchecked(text) }
}

fn bytes_at(bytes: &[u8], offset: u64, length: u64) -> &[u8] {
    &bytes[offset as usize..][..length as usize]
}

// A call that writes the items of a part of a message.
type Flatten = unsafe extern "C" fn(
    *const u8,
    usize,
    *const sys::dbus_wire_limits,
    usize,
    *mut FlatItem,
    usize,
    *mut u64,
    *mut sys::dbus_wire_checked,
) -> u32;

// Of so many items the room is taken before any is written: some 120,000 bytes.
const ROOM: usize = 3000;

/// What a call returns of so many bytes, and the items that it writes: it is handed room for most
/// parts of a message, and once more with room for all items if these have too little.
///
/// The call initializes as many items of the room as it counts, unless it answers
/// [`sys::DBUS_WIRE_NO_ROOM`].
pub(crate) fn items_written(length: usize, mut call: impl FnMut(*mut FlatItem, usize, &mut u64) -> u32) -> (u32, Vec<FlatItem>) {
    let (mut items, mut count) = (Vec::with_capacity(ROOM.min(length / 4 + 16)), 0);
    loop {
        let answer = call(items.as_mut_ptr(), items.capacity(), &mut count);
        if answer != sys::DBUS_WIRE_NO_ROOM {
            assert!(count as usize <= items.capacity(), "the call writes within its room");
            // SAFETY: the call has written so many.
            unsafe { items.set_len(count as usize) };
            return (answer, items);
        }
        items.reserve_exact(count as usize);
    }
}

// The items that such a call writes for these bytes, which are a message.
fn flat_items(flatten: Flatten, bytes: &[u8]) -> Vec<FlatItem> {
    let (limits, mut told) = (Limits::default().raw(), Default::default());
    let (answer, items) = items_written(bytes.len(), |items, room, count| {
        // SAFETY: a slice, room and references, as `sys` says.
        unsafe { flatten(bytes.as_ptr(), bytes.len(), &raw const limits, 0, items, room, count, &raw mut told) }
    });
    assert_eq!(answer, sys::DBUS_WIRE_WHOLE, "it is a message of the specification's too");
    items
}

/// The items of the body of these bytes, which are a message.
pub(crate) fn body_items(bytes: &[u8]) -> Vec<FlatItem> {
    flat_items(sys::dbus_wire_flatten, bytes)
}

// How many of the items after it are within this one.
fn within(item: &FlatItem) -> usize {
    if matches!(item.code as u8, b'a' | b'(' | b'{' | b'v') {
        item.number as usize
    } else {
        0
    }
}

// How many bytes a number of this type has; none if it is no type of numbers.
pub(crate) fn width(code: u8) -> Option<usize> {
    match code {
        b'y' => Some(1),
        b'n' | b'q' => Some(2),
        b'b' | b'i' | b'u' | b'h' => Some(4),
        b'x' | b't' | b'd' => Some(8),
        _ => None,
    }
}

// The first type of a signature, and those after it.
pub(crate) fn split_type(types: &str) -> (&str, &str) {
    let (mut open, mut end) = (0, 0);
    for code in types.bytes() {
        end += 1;
        match code {
            b'a' => continue,
            b'(' | b'{' => open += 1,
            b')' | b'}' => open -= 1,
            _ => {}
        }
        if open == 0 {
            break;
        }
    }
    types.split_at(end)
}

/// A value. Numbers come in the order of the processor, whatever that of the message.
#[derive(Clone, Debug, PartialEq)]
pub enum Value<'a> {
    /// A BYTE.
    Byte(u8),
    /// A BOOLEAN.
    Boolean(bool),
    /// An INT16.
    Int16(i16),
    /// A UINT16.
    Uint16(u16),
    /// An INT32.
    Int32(i32),
    /// A UINT32.
    Uint32(u32),
    /// An INT64.
    Int64(i64),
    /// A UINT64.
    Uint64(u64),
    /// A DOUBLE.
    Double(f64),
    /// A UNIX_FD: an index of a file descriptor of the message.
    UnixFd(u32),
    /// A STRING, without U+0000.
    String(&'a str),
    /// An OBJECT_PATH.
    ObjectPath(&'a str),
    /// A SIGNATURE.
    Signature(&'a str),
    /// An ARRAY.
    Array(Array<'a>),
    /// A STRUCT: its fields.
    Struct(Values<'a>),
    /// A DICT_ENTRY, which is an element of an array.
    Entry(Entry<'a>),
    /// A VARIANT.
    Variant(Variant<'a>),
}

impl<'a> Value<'a> {
    /// The text of a STRING, an OBJECT_PATH or a SIGNATURE; of another value `None`.
    #[must_use]
    pub fn as_str(&self) -> Option<&'a str> {
        match self {
            Value::String(text) | Value::ObjectPath(text) | Value::Signature(text) => Some(text),
            _ => None,
        }
    }

    /// Its type, as a signature of one complete type. That of a dict entry is none: no signature has
    /// it alone.
    #[must_use]
    pub fn signature(&self) -> String {
        match self {
            Value::Array(array) => format!("a{}", array.element_type()),
            Value::Struct(fields) => format!("({})", fields.types()),
            Value::Entry(entry) => format!("{{{}}}", entry.0.types()),
            other => other.code().into(),
        }
    }

    // The first code of its type.
    fn code(&self) -> char {
        match self {
            Value::Array(_) => 'a',
            Value::Struct(_) => '(',
            Value::Entry(_) => '{',
            Value::Byte(_) => 'y',
            Value::Boolean(_) => 'b',
            Value::Int16(_) => 'n',
            Value::Uint16(_) => 'q',
            Value::Int32(_) => 'i',
            Value::Uint32(_) => 'u',
            Value::Int64(_) => 'x',
            Value::Uint64(_) => 't',
            Value::Double(_) => 'd',
            Value::UnixFd(_) => 'h',
            Value::String(_) => 's',
            Value::ObjectPath(_) => 'o',
            Value::Signature(_) => 'g',
            Value::Variant(_) => 'v',
        }
    }

    // Whether it is of this one complete type.
    pub(crate) fn is_of(&self, one: &str) -> bool {
        let parts = |open: char, close: char| one.strip_prefix(open).and_then(|types| types.strip_suffix(close));
        match self {
            Value::Array(array) => one.strip_prefix('a') == Some(array.element_type()),
            Value::Struct(fields) => parts('(', ')') == Some(fields.types()),
            Value::Entry(entry) => parts('{', '}') == Some(entry.0.types()),
            other => one.chars().eq([other.code()]),
        }
    }

    // The number of an item, or of so many bytes of an array.
    fn number(code: u8, number: u64) -> Self {
        match code {
            b'y' => Value::Byte(number as u8),
            b'b' => Value::Boolean(number != 0),
            b'n' => Value::Int16(number as i16),
            b'q' => Value::Uint16(number as u16),
            b'i' => Value::Int32(number as i32),
            b'u' => Value::Uint32(number as u32),
            b'x' => Value::Int64(number as i64),
            b't' => Value::Uint64(number),
            b'd' => Value::Double(f64::from_bits(number)),
            b'h' => Value::UnixFd(number as u32),
            code => unreachable!("no type of numbers has the code {code}"),
        }
    }
}

// The items of a part of a message.
#[derive(Clone)]
struct Row<'a> {
    // Those of the message.
    bytes: &'a [u8],
    // As a call wrote them for these bytes.
    items: Arc<[FlatItem]>,
}

impl<'a> Row<'a> {
    // The text of an item of a text, or the signature of a variant.
    fn text(&self, item: &FlatItem) -> &'a str {
        // SAFETY: the call writes the places of texts of the message, which are UTF-8.
        unsafe { text_at(self.bytes, item.offset, item.length) }
    }

    // The places of the items that are within the one at a place.
    fn places(&self, at: usize) -> Range<usize> {
        at + 1..at + 1 + within(&self.items[at])
    }

    // The values that are within the item at a place, and have these types.
    fn parts(&self, at: usize, types: &'a str) -> Values<'a> {
        Values { row: self.clone(), left: Left::Items(self.places(at)), types }
    }

    // The types of the values at these places, which come first in a signature.
    fn types_of(&self, mut places: Range<usize>, signature: &'a str) -> &'a str {
        let mut others = signature;
        while let Some(at) = places.next() {
            places.start += within(&self.items[at]);
            others = split_type(others).1;
        }
        &signature[..signature.len() - others.len()]
    }

    // The value of the item at a place, which has this type.
    fn value(&self, at: usize, of: &'a str) -> Value<'a> {
        let item = &self.items[at];
        match item.code as u8 {
            b's' => Value::String(self.text(item)),
            b'o' => Value::ObjectPath(self.text(item)),
            b'g' => Value::Signature(self.text(item)),
            b'a' => Value::Array(self.array(at, &of[1..])),
            b'(' => Value::Struct(self.parts(at, &of[1..of.len() - 1])),
            b'{' => Value::Entry(Entry(self.parts(at, &of[1..of.len() - 1]))),
            b'v' => Value::Variant(Variant(self.parts(at, self.text(item)))),
            code => Value::number(code, item.number),
        }
    }

    // The array at a place, whose elements have this type.
    fn array(&self, at: usize, of: &'a str) -> Array<'a> {
        let item = &self.items[at];
        let contents = bytes_at(self.bytes, item.offset, item.length);
        let left = match width(item.element as u8) {
            Some(width) => Left::Numbers(contents, width),
            None => Left::Elements(self.places(at)),
        };
        Array { elements: Values { row: self.clone(), left, types: of }, contents }
    }
}

// Which values are left.
#[derive(Clone)]
enum Left<'a> {
    // Those of the items at these places, each of a type of its own.
    Items(Range<usize>),
    // The same of the elements of an array, which are all of one type.
    Elements(Range<usize>),
    // Numbers of so many bytes, which are the elements of an array.
    Numbers(&'a [u8], usize),
}

/// An iterator over values of a message, one after another: those of its body, the elements of an
/// array, or the fields of a struct. A copy, and what it gives, share the memory that it takes.
///
/// A function that calls itself for what is in a value is called at most 129 deep.
///
/// ```
/// use dbus_wire::{Value, Values};
///
/// fn count(values: Values<'_>) -> usize {
///     values.map(|value| match value {
///         Value::Array(array) => count(array.elements()),
///         Value::Struct(fields) => count(fields),
///         Value::Entry(entry) => count(entry.parts()),
///         Value::Variant(variant) => count(variant.parts()),
///         _ => 1,
///     }).sum()
/// }
/// ```
#[derive(Clone)]
pub struct Values<'a> {
    row: Row<'a>,
    left: Left<'a>,
    // The types of those that are left, or of each element.
    types: &'a str,
}

impl<'a> Values<'a> {
    /// The values of the body of these bytes, which are a message, by its items and its types.
    pub(crate) fn of_items(bytes: &'a [u8], items: impl Into<Arc<[FlatItem]>>, types: &'a str) -> Self {
        let row = Row { bytes, items: items.into() };
        let left = Left::Items(0..row.items.len());
        Self { row, left, types }
    }

    /// The types of the values that are left, as a signature: `su` for a STRING and a UINT32. Of
    /// the elements of an array it is the type of each.
    #[must_use]
    pub fn types(&self) -> &'a str {
        self.types
    }
}

impl<'a> Iterator for Values<'a> {
    type Item = Value<'a>;

    fn next(&mut self) -> Option<Value<'a>> {
        let (left, of) = match &mut self.left {
            Left::Numbers(bytes, width) => {
                let first = bytes.split_off(..*width)?;
                let number = number_of(Order::of(self.row.bytes[0].into()), first);
                return Some(Value::number(self.types.as_bytes()[0], number));
            }
            Left::Elements(left) => (left, self.types),
            Left::Items(left) => {
                let (of, others) = split_type(self.types);
                self.types = others;
                (left, of)
            }
        };
        let at = left.next()?;
        left.start += within(&self.row.items[at]);
        Some(self.row.value(at, of))
    }
}

// The number that the bytes spell in an order.
fn number_of(order: Order, bytes: &[u8]) -> u64 {
    let add = |number: u64, byte: &u8| number << 8 | u64::from(*byte);
    match order {
        Order::Little => bytes.iter().rev().fold(0, add),
        Order::Big => bytes.iter().fold(0, add),
    }
}

impl FusedIterator for Values<'_> {}

// The type of a header field.
const FIELD: &str = "(yv)";

/// A message's header fields, each as its code and its value, in their order in the message.
/// [`Message::fields`](crate::Message::fields) returns it, and [`whole_parts`](crate::whole_parts)
/// those of a message that is refused.
#[derive(Clone)]
pub struct Fields<'a> {
    // Structs of a code and a variant.
    fields: Values<'a>,
}

impl<'a> Fields<'a> {
    /// The header fields of these bytes, which are a message.
    pub(crate) fn of_message(bytes: &'a [u8]) -> Self {
        let row = Row { bytes, items: flat_items(sys::dbus_wire_flatten_fields, bytes).into() };
        // The first item is that of their array.
        Self { fields: row.array(0, FIELD).elements }
    }

    // The types of the body that they say.
    fn signature(&self) -> &'a str {
        let mut said = self.clone().filter_map(|(code, value)| match value {
            Value::Signature(types) if u32::from(code) == sys::DBUS_WIRE_FIELD_SIGNATURE => Some(types),
            _ => None,
        });
        said.next().unwrap_or_default()
    }
}

/// What of a message that is refused is whole before its fault, as
/// [`whole_parts`](crate::whole_parts) returns it.
#[derive(Clone, Debug)]
pub struct WholeParts<'a> {
    /// Its header fields.
    pub fields: Fields<'a>,
    /// The values of its body.
    pub body: Values<'a>,
}

impl<'a> WholeParts<'a> {
    /// Those of these bytes, if they have a fault.
    pub(crate) fn before_fault(bytes: &'a [u8], limits: &Limits) -> Option<Self> {
        let (limits, mut told, mut counted) = (limits.raw(), Default::default(), sys::dbus_wire_whole_count::default());
        let (answer, items) = items_written(bytes.len(), |items, room, count| {
            // SAFETY: a slice, room and references, as `sys` says.
            let answer = unsafe {
                sys::dbus_wire_flatten_whole(
                    bytes.as_ptr(),
                    bytes.len(),
                    &raw const limits,
                    0,
                    items,
                    room,
                    &raw mut counted,
                    &raw mut told,
                )
            };
            *count = counted.all;
            answer
        });
        let row = Row { bytes, items: items.into() };
        let of_body = counted.fields as usize..row.items.len();
        let left = Left::Elements(0..of_body.start);
        let fields = Fields { fields: Values { row: row.clone(), left, types: FIELD } };
        let types = row.types_of(of_body.clone(), fields.signature());
        (answer == sys::DBUS_WIRE_OK).then_some(Self { fields, body: Values { row, left: Left::Items(of_body), types } })
    }
}

impl<'a> Iterator for Fields<'a> {
    type Item = (u8, Value<'a>);

    fn next(&mut self) -> Option<(u8, Value<'a>)> {
        let Value::Struct(mut parts) = self.fields.next()? else { unreachable!("a field is a struct") };
        match (parts.next(), parts.next()) {
            (Some(Value::Byte(code)), Some(Value::Variant(held))) => Some((code, held.value())),
            _ => unreachable!("a field has a code and a variant"),
        }
    }
}

impl FusedIterator for Fields<'_> {}

impl fmt::Debug for Fields<'_> {
    fn fmt(&self, f: &mut fmt::Formatter<'_>) -> fmt::Result {
        f.debug_list().entries(self.clone()).finish()
    }
}

impl PartialEq for Values<'_> {
    /// Whether the types and the values that are left are the same, in whatever byte order they
    /// are.
    fn eq(&self, other: &Self) -> bool {
        self.types() == other.types() && self.clone().eq(other.clone())
    }
}

impl fmt::Debug for Values<'_> {
    fn fmt(&self, f: &mut fmt::Formatter<'_>) -> fmt::Result {
        f.debug_list().entries(self.clone()).finish()
    }
}

/// An array.
#[derive(Clone)]
pub struct Array<'a> {
    elements: Values<'a>,
    contents: &'a [u8],
}

impl<'a> Array<'a> {
    /// The type of its elements, one complete type as a signature.
    #[must_use]
    pub fn element_type(&self) -> &'a str {
        self.elements.types()
    }

    /// Its elements.
    #[must_use]
    pub fn elements(&self) -> Values<'a> {
        self.elements.clone()
    }

    /// The elements of an array of BYTE; of another array `None`.
    #[must_use]
    pub fn bytes(&self) -> Option<&'a [u8]> {
        (self.element_type() == "y").then_some(self.contents)
    }

    /// Whether it has no elements.
    #[must_use]
    pub fn is_empty(&self) -> bool {
        self.contents.is_empty()
    }

    /// The bytes of its elements, of N bytes each, and their order, if they are numbers of this type.
    pub(crate) fn numbers<const N: usize>(&self, of: &str) -> Option<(Order, impl Iterator<Item = [u8; N]> + use<'a, N>)> {
        let chunks = self.contents.chunks_exact(N).map(|chunk| chunk.try_into().expect("they are so many"));
        (self.element_type() == of).then_some((self.order(), chunks))
    }

    /// The bytes of its elements, if they are numbers of this order.
    pub(crate) fn spelled(&self, order: Order) -> Option<&'a [u8]> {
        let of_numbers = matches!(self.elements.left, Left::Numbers(_, width) if width == 1 || order == self.order());
        of_numbers.then_some(self.contents)
    }

    fn order(&self) -> Order {
        Order::of(self.elements.row.bytes[0].into())
    }
}

impl<'a> IntoIterator for Array<'a> {
    type Item = Value<'a>;
    type IntoIter = Values<'a>;

    fn into_iter(self) -> Values<'a> {
        self.elements
    }
}

impl PartialEq for Array<'_> {
    /// Whether the types and the elements are the same, in whatever byte order they are.
    fn eq(&self, other: &Self) -> bool {
        self.elements == other.elements
    }
}

impl fmt::Debug for Array<'_> {
    fn fmt(&self, f: &mut fmt::Formatter<'_>) -> fmt::Result {
        self.elements.fmt(f)
    }
}

// The value of an iterator that is known to have one.
fn known(value: Option<Value<'_>>) -> Value<'_> {
    value.expect("a dict entry has two values, and a variant one")
}

/// A dict entry: a key and its value.
#[derive(Clone, PartialEq)]
pub struct Entry<'a>(Values<'a>);

impl<'a> Entry<'a> {
    /// Its key, a number or a text.
    #[must_use]
    pub fn key(&self) -> Value<'a> {
        known(self.parts().next())
    }

    /// Its value.
    #[must_use]
    pub fn value(&self) -> Value<'a> {
        known(self.parts().nth(1))
    }

    /// Both: the key, then the value.
    #[must_use]
    pub fn parts(&self) -> Values<'a> {
        self.0.clone()
    }

    // Its key and its value.
    pub(crate) fn into_parts(mut self) -> (Value<'a>, Value<'a>) {
        (known(self.0.next()), known(self.0.next()))
    }
}

impl fmt::Debug for Entry<'_> {
    fn fmt(&self, f: &mut fmt::Formatter<'_>) -> fmt::Result {
        f.debug_map().entry(&self.key(), &self.value()).finish()
    }
}

/// A variant: a value with its type.
#[derive(Clone, PartialEq)]
pub struct Variant<'a>(Values<'a>);

impl<'a> Variant<'a> {
    /// The type of its value, one complete type as a signature.
    #[must_use]
    pub fn signature(&self) -> &'a str {
        self.0.types()
    }

    /// Its value.
    #[must_use]
    pub fn value(&self) -> Value<'a> {
        known(self.parts().next())
    }

    /// The same, as an iterator over one value.
    #[must_use]
    pub fn parts(&self) -> Values<'a> {
        self.0.clone()
    }

    // Its value.
    pub(crate) fn into_value(mut self) -> Value<'a> {
        known(self.0.next())
    }
}

impl fmt::Debug for Variant<'_> {
    fn fmt(&self, f: &mut fmt::Formatter<'_>) -> fmt::Result {
        self.value().fmt(f)
    }
}
