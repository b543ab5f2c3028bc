//! Whether bytes begin with a message.

use crate::{sys, Fault, Limits};

/// The order of the bytes of a message's numbers.
#[derive(Clone, Copy, Debug, PartialEq, Eq, Hash)]
pub enum Order {
    /// The lowest byte first: a message that begins with `l`.
    Little,
    /// The highest byte first: a message that begins with `B`.
    Big,
}

impl Order {
    pub(crate) fn of(code: u32) -> Self {
        if code == u32::from(b'B') {
            Order::Big
        } else {
            Order::Little
        }
    }

    /// The first byte of a message of this order, `l` or `B`.
    #[must_use]
    pub fn code(self) -> u8 {
        match self {
            Order::Little => b'l',
            Order::Big => b'B',
        }
    }
}

/// What [`check`] says of bytes.
#[derive(Clone, Copy, Debug, PartialEq, Eq)]
pub enum Answer {
    /// They begin with a message.
    Whole {
        /// Its number of bytes.
        length: usize,
        /// Its byte order.
        order: Order,
    },
    /// No message yet, and no fault: more bytes are needed.
    Partial,
    /// The bytes show a fault, so no message begins so, whatever follows.
    Refused(Fault),
}

impl Answer {
    // What a call returned of bytes, and what it wrote beside that.
    pub(crate) fn new(answer: u32, told: &sys::dbus_wire_checked) -> Self {
        match answer {
            sys::DBUS_WIRE_WHOLE => Answer::Whole { length: told.length as usize, order: Order::of(told.order) },
            sys::DBUS_WIRE_PARTIAL => Answer::Partial,
            _ => Answer::Refused(Fault::new(told.offset, told.reason, told.field)),
        }
    }
}

/// Whether the bytes begin with a message within the limits. Bytes after it are not looked at.
///
/// ```
/// use dbus_wire::{check, Answer, Fault, Limits, Reason};
///
/// assert_eq!(check(b"l\x01\0", &Limits::default()), Answer::Partial);
/// let fault = Fault { at: 3, reason: Reason::Version };
/// assert_eq!(check(b"l\x01\0\x02", &Limits::default()), Answer::Refused(fault));
/// ```
#[must_use]
pub fn check(bytes: &[u8], limits: &Limits) -> Answer {
    let mut told = sys::dbus_wire_checked::default();
    // SAFETY: a slice and references, as `sys` says.
    Answer::new(unsafe { sys::dbus_wire_check(bytes.as_ptr(), bytes.len(), &limits.raw(), &raw mut told) }, &told)
}

/// The number of bytes of the message that the bytes begin with, as soon as 16 of them are there
/// and none of these is at fault: 16 at least and `limits.message` at most. `None` with fewer than
/// 16 bytes, or if no message begins so, and [`check`] then says why.
///
/// ```
/// use dbus_wire::{wanted, Limits};
///
/// let start = b"l\x04\0\x01\x07\0\0\0\x01\0\0\0\x37\0\0\0";
/// assert_eq!(wanted(start, &Limits::default()), Some(79));
/// assert_eq!(wanted(&start[..15], &Limits::default()), None);
/// ```
#[must_use]
pub fn wanted(bytes: &[u8], limits: &Limits) -> Option<usize> {
    // SAFETY: a slice and a reference, as `sys` says.
    match unsafe { sys::dbus_wire_wanted(bytes.as_ptr(), bytes.len(), &limits.raw()) } {
        0 => None,
        length => Some(length as usize),
    }
}
