//! Looking on at a handshake.

use std::error::Error;
use std::fmt;

use crate::line::{told_fault, told_line, Line};
use crate::{sys, Command, LineFault};

/// What becomes of what one side of a handshake sent.
#[derive(Clone, Copy, Debug, PartialEq, Eq, Hash)]
pub enum Passage<'a> {
    /// Pass on the byte 0 before a client's first line.
    Nul,
    /// Pass on this line. After [`crate::Command::Begin`] both sides send messages.
    Line(Line<'a>),
    /// Nothing yet: more bytes are needed.
    More,
    /// Nothing yet: BEGIN is there, and the server has lines to answer that came before it.
    Waits,
    /// Messages have begun.
    Messages,
}

/// Why nothing is to be passed on, now and from then on.
#[derive(Clone, Copy, Debug, PartialEq, Eq, Hash)]
#[non_exhaustive]
pub enum NotPassed {
    /// The bytes begin with no line.
    NoLine(LineFault),
    /// The line is not exact.
    NotExact(Command),
    /// The line is exact, but its side may not send it now: BEGIN of a client that the server did
    /// not accept, an answer of a server to no line, or one to NEGOTIATE_UNIX_FD that is neither
    /// AGREE_UNIX_FD nor ERROR.
    OutOfTurn(Command),
    /// Something of either side was not to be passed on before.
    Before,
}

impl fmt::Display for NotPassed {
    fn fmt(&self, f: &mut fmt::Formatter<'_>) -> fmt::Result {
        match self {
            NotPassed::NoLine(fault) => fault.fmt(f),
            NotPassed::NotExact(command) => write!(f, "a line of the handshake is not exact: {command:?}"),
            NotPassed::OutOfTurn(command) => write!(f, "a line of the handshake is out of turn: {command:?}"),
            NotPassed::Before => f.write_str("the handshake was not passed on before"),
        }
    }
}

impl Error for NotPassed {}

/// One who looks on at a handshake, for a program that passes on what both sides send, such as a
/// proxy. It passes exact lines alone, and BEGIN once the server has answered each line before it
/// and accepts the client. So every server begins messages where it says so.
///
/// Each call gets the bytes of its side that were not passed on.
///
/// ```
/// use dbus_wire::{Command, NotPassed, Passage, Watch};
///
/// let mut watch = Watch::new();
/// assert_eq!(watch.client(b"\0AUTH\r\n"), Ok(Passage::Nul));
/// assert_eq!(watch.client(b"BEGIN \r\n"), Err(NotPassed::NotExact(Command::Begin)));
/// ```
#[derive(Clone, Debug, Default)]
pub struct Watch(sys::dbus_wire_watch);

// The state of a server once messages have begun. Those above it are of what was refused.
const MESSAGES: u32 = 3;

type Look = unsafe extern "C" fn(*mut sys::dbus_wire_watch, *const u8, usize, *mut sys::dbus_wire_line) -> u32;

impl Watch {
    /// One that has seen nothing.
    #[must_use]
    pub fn new() -> Self {
        Self::default()
    }

    /// Looks at what a client sent.
    ///
    /// # Errors
    ///
    /// If nothing is to be passed on, now and from then on.
    pub fn client<'a>(&mut self, bytes: &'a [u8]) -> Result<Passage<'a>, NotPassed> {
        self.look(sys::dbus_wire_watch_client, bytes)
    }

    /// Looks at what a server sent.
    ///
    /// # Errors
    ///
    /// If nothing is to be passed on, now and from then on.
    pub fn server<'a>(&mut self, bytes: &'a [u8]) -> Result<Passage<'a>, NotPassed> {
        self.look(sys::dbus_wire_watch_server, bytes)
    }

    fn look<'a>(&mut self, look: Look, bytes: &'a [u8]) -> Result<Passage<'a>, NotPassed> {
        let (mut told, was_refused) = (sys::dbus_wire_line::default(), self.0.server > MESSAGES);
        // SAFETY: a slice and references, as `sys` says.
        match unsafe { look(&raw mut self.0, bytes.as_ptr(), bytes.len(), &raw mut told) } {
            sys::DBUS_WIRE_WHOLE if told.command == sys::DBUS_WIRE_LINE_NUL => Ok(Passage::Nul),
            sys::DBUS_WIRE_WHOLE => Ok(Passage::Line(told_line(bytes, &told))),
            sys::DBUS_WIRE_PARTIAL => Ok(Passage::More),
            sys::DBUS_WIRE_WAITS => Ok(Passage::Waits),
            sys::DBUS_WIRE_NO_VALUE => Ok(Passage::Messages),
            _ if was_refused => Err(NotPassed::Before),
            _ if told.length == 0 => Err(NotPassed::NoLine(told_fault(&told))),
            _ if told.is_exact == 0 => Err(NotPassed::NotExact(told_line(bytes, &told).command)),
            _ => Err(NotPassed::OutOfTurn(told_line(bytes, &told).command)),
        }
    }
}
