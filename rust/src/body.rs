//! A body spelled value by value.

use std::error::Error;
use std::fmt;

use crate::{sys, Order};

/// A text or an array has more bytes than the bytes of its length can say: a signature 255, each
/// other 4,294,967,295.
#[derive(Clone, Copy, Debug, PartialEq, Eq)]
pub struct TooLong;

impl fmt::Display for TooLong {
    fn fmt(&self, f: &mut fmt::Formatter<'_>) -> fmt::Result {
        f.write_str("a text or an array is too long")
    }
}

impl Error for TooLong {}

/// A body of a message, to which values are put one after another. A struct or a dict entry is
/// [`begin_struct`](Self::begin_struct) and its fields; a variant is
/// [`signature`](Self::signature), with the type of its value, and that value. The calls do not
/// check what is within what: [`build`](crate::build) accepts exactly the bodies that their
/// signature spells.
///
/// ```
/// use dbus_wire::{build, Body, Kind, Limits, Message, Order, Parts};
///
/// let mut body = Body::new(Order::Little);
/// body.text("a.b.Player")?;
/// body.array(8, |body| {
///     body.begin_struct();
///     body.text("Volume")?;
///     body.signature("d")?;
///     body.double(0.5);
///     Ok(())
/// })?;
/// body.array(4, |_| Ok(()))?;
/// let signal = Parts {
///     path: Some("/a"),
///     interface: Some("org.freedesktop.DBus.Properties"),
///     member: Some("PropertiesChanged"),
///     signature: Some("sa{sv}as"),
///     body: body.bytes(),
///     ..Parts::new(Kind::Signal, 1)
/// };
/// let bytes = build(&signal, &Limits::default()).unwrap();
/// assert_eq!(Message::parse(&bytes).unwrap().body().count(), 3);
/// # Ok::<(), dbus_wire::TooLong>(())
/// ```
#[derive(Clone, Debug)]
pub struct Body {
    // What is spelled, and room after it.
    room: Vec<u8>,
    writer: sys::dbus_wire_writer,
}

impl Body {
    /// An empty body of this byte order.
    #[must_use]
    pub fn new(order: Order) -> Self {
        let writer = sys::dbus_wire_writer { length: 0, order: order.code().into(), reserved: 0 };
        Self { room: Vec::new(), writer }
    }

    /// The bytes that are spelled.
    #[must_use]
    pub fn bytes(&self) -> &[u8] {
        &self.room[..self.writer.length as usize]
    }

    /// Puts a BYTE.
    pub fn byte(&mut self, number: u8) {
        self.number(1, number.into());
    }

    /// Puts a BOOLEAN.
    pub fn boolean(&mut self, so: bool) {
        self.number(4, so.into());
    }

    /// Puts an INT16.
    pub fn int16(&mut self, number: i16) {
        self.number(2, number as u64);
    }

    /// Puts an UINT16.
    pub fn uint16(&mut self, number: u16) {
        self.number(2, number.into());
    }

    /// Puts an INT32.
    pub fn int32(&mut self, number: i32) {
        self.number(4, number as u64);
    }

    /// Puts an UINT32, or the index of a UNIX_FD.
    pub fn uint32(&mut self, number: u32) {
        self.number(4, number.into());
    }

    /// Puts an INT64.
    pub fn int64(&mut self, number: i64) {
        self.number(8, number as u64);
    }

    /// Puts an UINT64.
    pub fn uint64(&mut self, number: u64) {
        self.number(8, number);
    }

    /// Puts a DOUBLE.
    pub fn double(&mut self, number: f64) {
        self.number(8, number.to_bits());
    }

    /// Puts a STRING or an OBJECT_PATH.
    ///
    /// # Errors
    ///
    /// If the text has more than 4,294,967,295 bytes. Then nothing is put.
    pub fn text(&mut self, text: &str) -> Result<(), TooLong> {
        // SAFETY: two slices, of which `out` is mutable, and a reference, as `sys` says.
        self.put(|out, writer| unsafe { sys::dbus_wire_put_text(out.as_mut_ptr(), out.len(), writer, text.as_ptr(), text.len()) })
    }

    /// Puts a SIGNATURE, or the type of the value in a variant, which has to come next.
    ///
    /// # Errors
    ///
    /// If the text has more than 255 bytes. Then nothing is put.
    pub fn signature(&mut self, text: &str) -> Result<(), TooLong> {
        // SAFETY: two slices, of which `out` is mutable, and a reference, as `sys` says.
        self.put(|out, writer| unsafe {
            sys::dbus_wire_put_signature(out.as_mut_ptr(), out.len(), writer, text.as_ptr(), text.len())
        })
    }

    /// Puts the padding before a struct or a dict entry, whose fields have to come next.
    pub fn begin_struct(&mut self) {
        // SAFETY: a mutable slice and a reference, as `sys` says.
        let put = self.put(|out, writer| unsafe { sys::dbus_wire_begin_struct(out.as_mut_ptr(), out.len(), writer) });
        put.expect("padding is never too long");
    }

    /// Puts an array, whose elements the function puts: 1, 2, 4 or 8 is their alignment. After an
    /// error of the function the array has the length 0, and what was put in it follows.
    ///
    /// # Panics
    ///
    /// If no type has the alignment.
    ///
    /// # Errors
    ///
    /// What the function returns, or if the elements have more than 4,294,967,295 bytes.
    pub fn array(&mut self, alignment: u32, elements: impl FnOnce(&mut Self) -> Result<(), TooLong>) -> Result<(), TooLong> {
        assert!(matches!(alignment, 1 | 2 | 4 | 8), "no type has the alignment {alignment}");
        let array = self.open_array(alignment)?;
        elements(self)?;
        self.close_array(&array)
    }

    /// Puts the length of an array, as 0 until it is closed, and the padding to its first element,
    /// whose alignment is given.
    pub(crate) fn open_array(&mut self, alignment: u32) -> Result<sys::dbus_wire_array, TooLong> {
        let mut array = sys::dbus_wire_array::default();
        // SAFETY: a mutable slice and two references, as `sys` says.
        self.put(|out, writer| unsafe {
            sys::dbus_wire_open_array(out.as_mut_ptr(), out.len(), writer, alignment, &raw mut array)
        })?;
        Ok(array)
    }

    /// Puts the length of an array, whose elements end here.
    pub(crate) fn close_array(&mut self, array: &sys::dbus_wire_array) -> Result<(), TooLong> {
        // SAFETY: a mutable slice and two references, as `sys` says.
        self.put(|out, writer| unsafe { sys::dbus_wire_close_array(out.as_mut_ptr(), out.len(), writer, array) })
    }

    /// Its byte order.
    pub(crate) fn order(&self) -> Order {
        Order::of(self.writer.order)
    }

    /// Puts the bytes of the elements of an array, which are numbers.
    pub(crate) fn bytes_of_array(&mut self, bytes: &[u8]) {
        self.room_after(bytes.len()).copy_from_slice(bytes);
    }

    /// Puts the elements of an array, which are numbers of N bytes, of which these are the bytes.
    pub(crate) fn numbers_of_array<T: Copy, const N: usize>(&mut self, numbers: &[T], bytes_of: impl Fn(T) -> [u8; N]) {
        for (room, number) in self.room_after(numbers.len() * N).chunks_exact_mut(N).zip(numbers) {
            room.copy_from_slice(&bytes_of(*number));
        }
    }

    // Room for so many bytes, which are spelled from here on.
    fn room_after(&mut self, count: usize) -> &mut [u8] {
        let length = self.bytes().len();
        self.room.resize(self.room.len().max(length + count), 0);
        self.writer.length += count as u64;
        &mut self.room[length..length + count]
    }

    fn number(&mut self, width: u32, bits: u64) {
        // SAFETY: a mutable slice and a reference, as `sys` says.
        let put = self.put(|out, writer| unsafe { sys::dbus_wire_put_number(out.as_mut_ptr(), out.len(), writer, width, bits) });
        put.expect("a number is never too long");
    }

    // Makes the call, with more room as long as there is too little.
    fn put(&mut self, mut call: impl FnMut(&mut [u8], &mut sys::dbus_wire_writer) -> u32) -> Result<(), TooLong> {
        loop {
            match call(&mut self.room, &mut self.writer) {
                sys::DBUS_WIRE_OK => return Ok(()),
                sys::DBUS_WIRE_NO_ROOM => self.room.resize(self.room.len() * 2 + 64, 0),
                _ => return Err(TooLong),
            }
        }
    }
}
