//! A message in the other byte order.

use std::error::Error;
use std::fmt;

use crate::{sys, Fault, Limits, Order};

/// Why [`byteswap`] wrote nothing.
#[derive(Clone, Copy, Debug, PartialEq, Eq)]
#[non_exhaustive]
pub enum SwapError {
    /// No message yet, and no fault: more bytes are needed.
    Partial,
    /// The bytes show a fault, so no message begins so, whatever follows.
    Refused(Fault),
    /// The message is longer than the room for it.
    NoRoom {
        /// The number of bytes of the message.
        length: usize,
    },
}

impl fmt::Display for SwapError {
    fn fmt(&self, f: &mut fmt::Formatter<'_>) -> fmt::Result {
        match self {
            SwapError::Partial => f.write_str("the bytes end within a message"),
            SwapError::Refused(fault) => fault.fmt(f),
            SwapError::NoRoom { length } => write!(f, "there is no room for the {length} bytes of the message"),
        }
    }
}

impl Error for SwapError {}

/// Writes the message within the limits that the bytes begin with to the start of `out`, in the
/// byte order, and returns its length, which is the same in either order. What is after it in `out`
/// stays as it was; so does all of `out` on an error.
///
/// ```
/// use dbus_wire::{byteswap, Limits, Message, Order, SwapError};
///
/// # let signal = b"l\x04\0\x01\0\0\0\0\x01\0\0\0\x2a\0\0\0\x01\x01o\0\x01\0\0\0/\0\0\0\0\0\0\0\x02\x01s\0\x03\0\0\0a.b\0\0\0\0\0\x03\x01s\0\x01\0\0\0c\0\0\0\0\0\0\0";
/// let mut out = [0; 100];
/// let length = byteswap(signal, &Limits::default(), Order::Big, &mut out)?;
/// assert_eq!(Message::parse(&out[..length]).unwrap().serial(), 1);
/// # Ok::<(), SwapError>(())
/// ```
///
/// # Errors
///
/// If the bytes begin with no message within the limits, or if it has more bytes than `out`.
pub fn byteswap(bytes: &[u8], limits: &Limits, order: Order, out: &mut [u8]) -> Result<usize, SwapError> {
    let mut told = sys::dbus_wire_checked::default();
    // SAFETY: two slices, of which `out` is mutable, and references, as `sys` says.
    let answer = unsafe {
        sys::dbus_wire_swap(
            bytes.as_ptr(),
            bytes.len(),
            &limits.raw(),
            order.code().into(),
            out.as_mut_ptr(),
            out.len(),
            &raw mut told,
        )
    };
    match answer {
        sys::DBUS_WIRE_WHOLE => Ok(told.length as usize),
        sys::DBUS_WIRE_PARTIAL => Err(SwapError::Partial),
        sys::DBUS_WIRE_NO_ROOM => Err(SwapError::NoRoom { length: told.length as usize }),
        _ => Err(SwapError::Refused(Fault::new(told.offset, told.reason, told.field))),
    }
}
