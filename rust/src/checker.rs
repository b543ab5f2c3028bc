//! A checker of messages whose bytes come in pieces.

use std::error::Error;
use std::fmt;
use std::ptr;

use crate::{sys, Fault, Limits};

/// There is no memory for a checker.
#[derive(Clone, Copy, Debug, PartialEq, Eq)]
pub struct OutOfMemory;

impl fmt::Display for OutOfMemory {
    fn fmt(&self, f: &mut fmt::Formatter<'_>) -> fmt::Result {
        f.write_str("out of memory")
    }
}

impl Error for OutOfMemory {}

/// What [`Checker::take`] returns of a piece.
#[derive(Clone, Copy, Debug, PartialEq, Eq)]
pub enum Taken {
    /// The bytes so far are a message.
    Whole {
        /// The number of bytes of the piece that belong to it, which may be 0. Those after it are
        /// not looked at.
        count: usize,
    },
    /// All of the piece was taken, and more bytes are needed.
    Partial,
    /// No message begins with the bytes so far, whatever follows.
    Refused(Fault),
}

/// Checks messages whose bytes come in pieces, and keeps none of them. It takes some 40,000 bytes
/// of memory, whatever the messages have.
///
/// ```
/// use dbus_wire::{Checker, Limits, Taken};
///
/// # let signal = b"l\x04\0\x01\0\0\0\0\x01\0\0\0\x2a\0\0\0\x01\x01o\0\x01\0\0\0/\0\0\0\0\0\0\0\x02\x01s\0\x03\0\0\0a.b\0\0\0\0\0\x03\x01s\0\x01\0\0\0c\0\0\0\0\0\0\0";
/// let mut checker = Checker::new(&Limits::default())?;
/// assert_eq!(checker.take(&signal[..20]), Taken::Partial);
/// let Taken::Whole { count } = checker.take(&signal[20..]) else { unreachable!() };
/// assert_eq!(20 + count, 64);
/// checker.restart(); // for the next message
/// # Ok::<(), dbus_wire::OutOfMemory>(())
/// ```
#[derive(Debug)]
pub struct Checker {
    // A checker of the library's, from `new` until `drop`.
    raw: sys::dbus_wire_checker,
}

// SAFETY: the header allows calls on a checker from any thread, if one returns before the next
// begins. Each takes the checker by a mutable reference, which sees to that.
unsafe impl Send for Checker {}

impl Checker {
    /// A checker that has taken no bytes, of messages within the limits.
    ///
    /// # Errors
    ///
    /// If there is no memory for it.
    pub fn new(limits: &Limits) -> Result<Self, OutOfMemory> {
        let mut raw = sys::dbus_wire_checker { inner: ptr::null_mut() };
        // SAFETY: references, as `sys` says, to limits and to what is no checker yet.
        match unsafe { sys::dbus_wire_checker_new(&limits.raw(), &raw mut raw) } {
            sys::DBUS_WIRE_OK => Ok(Self { raw }),
            _ => Err(OutOfMemory),
        }
    }

    /// Takes a piece, of any length: the bytes that follow those that it has taken. After
    /// [`Taken::Whole`] it takes no more bytes, and after [`Taken::Refused`] it returns the same
    /// fault, until it is restarted.
    pub fn take(&mut self, piece: &[u8]) -> Taken {
        let mut told = sys::dbus_wire_taken::default();
        // SAFETY: a slice and references, as `sys` says; only calls write `raw` from `new` on.
        match unsafe { sys::dbus_wire_checker_take(&raw mut self.raw, piece.as_ptr(), piece.len(), &raw mut told) } {
            sys::DBUS_WIRE_WHOLE => Taken::Whole { count: told.count as usize },
            sys::DBUS_WIRE_PARTIAL => Taken::Partial,
            sys::DBUS_WIRE_REFUSED => Taken::Refused(Fault::new(told.offset, told.reason, told.field)),
            answer => unreachable!("a checker answers {answer}"),
        }
    }

    /// Begins again, for the next message: it has taken no bytes. Its limits stay.
    pub fn restart(&mut self) {
        // SAFETY: a reference, as `sys` says; only calls write `raw` from `new` on.
        let answer = unsafe { sys::dbus_wire_checker_restart(&raw mut self.raw) };
        debug_assert_eq!(answer, sys::DBUS_WIRE_OK);
    }
}

impl Drop for Checker {
    fn drop(&mut self) {
        // SAFETY: a reference, as `sys` says; only calls write `raw` from `new` on, and nothing
        // uses it after its drop.
        unsafe { sys::dbus_wire_checker_free(&raw mut self.raw) };
    }
}
