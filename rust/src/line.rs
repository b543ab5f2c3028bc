//! The lines of a handshake between others.

use std::error::Error;
use std::fmt;

use crate::sys;

/// The commands of a handshake's lines.
#[derive(Clone, Copy, Debug, PartialEq, Eq, Hash)]
pub enum Command {
    /// No command of the side: another name, or other words than it takes.
    Other,
    /// AUTH, of a client.
    Auth,
    /// CANCEL, of a client.
    Cancel,
    /// BEGIN, of a client: its last line.
    Begin,
    /// DATA, of either side.
    Data,
    /// ERROR, of either side.
    Error,
    /// NEGOTIATE_UNIX_FD, of a client.
    NegotiateUnixFd,
    /// REJECTED, of a server.
    Rejected,
    /// OK, of a server.
    Ok,
    /// AGREE_UNIX_FD, of a server.
    AgreeUnixFd,
}

impl Command {
    fn numbered(number: u32) -> Self {
        match number {
            sys::DBUS_WIRE_LINE_AUTH => Command::Auth,
            sys::DBUS_WIRE_LINE_CANCEL => Command::Cancel,
            sys::DBUS_WIRE_LINE_BEGIN => Command::Begin,
            sys::DBUS_WIRE_LINE_DATA => Command::Data,
            sys::DBUS_WIRE_LINE_ERROR => Command::Error,
            sys::DBUS_WIRE_LINE_NEGOTIATE_UNIX_FD => Command::NegotiateUnixFd,
            sys::DBUS_WIRE_LINE_REJECTED => Command::Rejected,
            sys::DBUS_WIRE_LINE_OK => Command::Ok,
            sys::DBUS_WIRE_LINE_AGREE_UNIX_FD => Command::AgreeUnixFd,
            _ => Command::Other,
        }
    }
}

/// A line of a handshake.
#[derive(Clone, Copy, Debug, PartialEq, Eq, Hash)]
pub struct Line<'a> {
    /// Its number of bytes, with its CR LF.
    pub length: usize,
    /// Its command.
    pub command: Command,
    /// The mechanism of AUTH, if it names one.
    pub mechanism: Option<&'a str>,
    /// The hexadecimal digits of AUTH's initial response, of DATA or of the GUID of OK; the text of
    /// ERROR; or the mechanisms of REJECTED up to the line's end, with the spaces between them and
    /// after the last one. `None` if there is none.
    pub text: Option<&'a str>,
    /// Whether the line is exact: the very bytes that an end of this library sends to say the same,
    /// with one space between words, none at the end, and hexadecimal digits in lower case. Who
    /// passes lines on passes no other ones, since servers differ in what they make of them.
    pub is_exact: bool,
}

/// Why no line begins so.
#[derive(Clone, Copy, Debug, PartialEq, Eq, Hash)]
#[non_exhaustive]
pub enum LineFault {
    /// The line has more than 16,384 bytes.
    TooLong,
    /// A byte that a line may not have there.
    BadByte {
        /// Its place, in bytes from the first.
        at: usize,
    },
}

impl fmt::Display for LineFault {
    fn fmt(&self, f: &mut fmt::Formatter<'_>) -> fmt::Result {
        match self {
            LineFault::TooLong => f.write_str("the line has more than 16,384 bytes"),
            LineFault::BadByte { at } => write!(f, "a byte that a line may not have, at byte {at}"),
        }
    }
}

impl Error for LineFault {}

type Call = unsafe extern "C" fn(*const u8, usize, *mut sys::dbus_wire_line) -> u32;

fn line(call: Call, bytes: &[u8]) -> Result<Option<Line<'_>>, LineFault> {
    let mut told = sys::dbus_wire_line::default();
    // SAFETY: a slice and a reference, as `sys` says.
    match unsafe { call(bytes.as_ptr(), bytes.len(), &raw mut told) } {
        sys::DBUS_WIRE_WHOLE => Ok(Some(told_line(bytes, &told))),
        sys::DBUS_WIRE_PARTIAL => Ok(None),
        _ => Err(told_fault(&told)),
    }
}

// Why no line begins so, as the library told.
pub(crate) fn told_fault(told: &sys::dbus_wire_line) -> LineFault {
    match told.is_too_long {
        0 => LineFault::BadByte { at: told.offset as usize },
        _ => LineFault::TooLong,
    }
}

// The line that the library told of these bytes.
pub(crate) fn told_line<'a>(bytes: &'a [u8], told: &sys::dbus_wire_line) -> Line<'a> {
    let text = |place: sys::dbus_wire_text| {
        let bytes = &bytes[place.offset as usize..][..place.length as usize];
        (place.is_there != 0).then(|| std::str::from_utf8(bytes).expect("a line is ASCII"))
    };
    Line {
        length: told.length as usize,
        command: Command::numbered(told.command),
        mechanism: text(told.mechanism),
        text: text(told.text),
        is_exact: told.is_exact != 0,
    }
}

/// The line that the bytes begin with, of what a client sends in the handshake, after its byte 0;
/// `None` if more bytes are needed. After BEGIN messages follow.
///
/// ```
/// use dbus_wire::{client_line, Command};
///
/// let sent = b"AUTH EXTERNAL 31303030\r\nBEGIN\r\nl\x01";
/// let line = client_line(sent)?.expect("a line is there");
/// assert_eq!((line.command, line.mechanism, line.text), (Command::Auth, Some("EXTERNAL"), Some("31303030")));
/// let line = client_line(&sent[line.length..])?.expect("one more is there");
/// assert_eq!((line.command, line.length), (Command::Begin, 7));
/// # Ok::<(), dbus_wire::LineFault>(())
/// ```
///
/// # Errors
///
/// If no line begins so, whatever follows.
pub fn client_line(bytes: &[u8]) -> Result<Option<Line<'_>>, LineFault> {
    line(sys::dbus_wire_client_line, bytes)
}

/// The same of what a server sends. Messages follow its last line before the client's BEGIN: OK, or
/// what answers NEGOTIATE_UNIX_FD.
///
/// # Errors
///
/// If no line begins so, whatever follows.
pub fn server_line(bytes: &[u8]) -> Result<Option<Line<'_>>, LineFault> {
    line(sys::dbus_wire_server_line, bytes)
}
