//! Names, signatures and other texts.

use std::error::Error;
use std::fmt;

use crate::sys;

/// The kinds of text. A name or a signature has at most 255 bytes.
#[derive(Clone, Copy, Debug, PartialEq, Eq, Hash)]
#[non_exhaustive]
pub enum TextKind {
    /// UTF-8 without U+0000.
    String,
    /// An object path.
    ObjectPath,
    /// An interface name.
    Interface,
    /// A member name.
    Member,
    /// An error name.
    ErrorName,
    /// A bus name: unique if its first byte is `:`, else well-known.
    BusName,
    /// A signature: zero or more complete types.
    Signature,
    /// A signature of exactly one complete type.
    SingleType,
}

impl TextKind {
    fn number(self) -> u32 {
        match self {
            TextKind::String => sys::DBUS_WIRE_TEXT_STRING,
            TextKind::ObjectPath => sys::DBUS_WIRE_TEXT_OBJECT_PATH,
            TextKind::Interface => sys::DBUS_WIRE_TEXT_INTERFACE,
            TextKind::Member => sys::DBUS_WIRE_TEXT_MEMBER,
            TextKind::ErrorName => sys::DBUS_WIRE_TEXT_ERROR_NAME,
            TextKind::BusName => sys::DBUS_WIRE_TEXT_BUS_NAME,
            TextKind::Signature => sys::DBUS_WIRE_TEXT_SIGNATURE,
            TextKind::SingleType => sys::DBUS_WIRE_TEXT_SINGLE_TYPE,
        }
    }
}

/// Why bytes are no text of a kind.
#[derive(Clone, Copy, Debug, PartialEq, Eq, Hash)]
pub enum TextFault {
    /// They have more than 255 bytes and may not, which comes first.
    TooLong,
    /// They are not of the kind.
    Bad {
        /// The length of the longest prefix with which some text of the kind begins.
        at: usize,
    },
}

impl fmt::Display for TextFault {
    fn fmt(&self, f: &mut fmt::Formatter<'_>) -> fmt::Result {
        match self {
            TextFault::TooLong => f.write_str("the text has more than 255 bytes"),
            TextFault::Bad { at } => write!(f, "the text is not valid, at byte {at}"),
        }
    }
}

impl Error for TextFault {}

/// The bytes as a text, if all of them are one of the kind.
///
/// ```
/// use dbus_wire::{check_text, TextFault, TextKind};
///
/// assert_eq!(check_text(TextKind::Member, b"Greet"), Ok("Greet"));
/// assert_eq!(check_text(TextKind::ObjectPath, b"/a//b"), Err(TextFault::Bad { at: 3 }));
/// ```
///
/// # Errors
///
/// If they are not: where they break.
pub fn check_text(kind: TextKind, bytes: &[u8]) -> Result<&str, TextFault> {
    let mut told = sys::dbus_wire_text_checked::default();
    // SAFETY: a slice and a reference, as `sys` says.
    let answer = unsafe { sys::dbus_wire_text_check(kind.number(), bytes.as_ptr(), bytes.len(), &raw mut told) };
    match answer {
        // SAFETY: the library says that the bytes are a text of the kind, and those of every kind
        // are UTF-8.
        sys::DBUS_WIRE_OK => Ok(unsafe { std::str::from_utf8_unchecked(bytes) }),
        sys::DBUS_WIRE_REFUSED if told.is_too_long != 0 => Err(TextFault::TooLong),
        _ => Err(TextFault::Bad { at: told.offset as usize }),
    }
}
