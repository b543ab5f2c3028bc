//! The messages of a file or a socket, one after another.

use std::error::Error;
use std::fmt;
use std::io::{self, Read};
use std::iter::FusedIterator;

use crate::{wanted, Fault, Limits, OwnedMessage, ParseError, Reason};

// The number of bytes that state the length of a message.
const FIXED_HEADER_LENGTH: usize = 16;

/// Why no further message is read.
#[derive(Debug)]
#[non_exhaustive]
pub enum ReadError {
    /// What the source returned.
    Io(io::Error),
    /// The bytes are no message. The fault counts from the first byte that was read of the source;
    /// if this ends within a message, its reason is [`Reason::Truncated`].
    Refused(Fault),
}

impl fmt::Display for ReadError {
    fn fmt(&self, f: &mut fmt::Formatter<'_>) -> fmt::Result {
        match self {
            ReadError::Io(error) => error.fmt(f),
            ReadError::Refused(fault) => fault.fmt(f),
        }
    }
}

impl Error for ReadError {
    fn source(&self) -> Option<&(dyn Error + 'static)> {
        match self {
            ReadError::Io(error) => Some(error),
            ReadError::Refused(_) => None,
        }
    }
}

impl From<io::Error> for ReadError {
    fn from(error: io::Error) -> Self {
        ReadError::Io(error)
    }
}

/// The messages of a source that blocks, such as a file, a pipe or a socket, within the
/// specification's limits. After an error there are no more.
///
/// It reads no byte past each message, so the source may be shared; two reads are a message's, so a
/// file is to be read through a [`BufReader`](io::BufReader). It takes memory for the bytes that
/// are there, whatever length they state.
///
/// ```
/// # fn main() -> Result<(), dbus_wire::ReadError> {
/// # let file = include_bytes!("../tests/data/session.dbus").as_slice();
/// for message in dbus_wire::messages(file) {
///     let message = message?;
///     println!("{:?}", message.member());
/// }
/// # Ok(())
/// # }
/// ```
pub fn messages<R: Read>(source: R) -> Messages<R> {
    Messages { source, limits: Limits::default(), at: 0, is_done: false }
}

/// The messages of a source; [`messages`] returns it.
#[derive(Debug)]
pub struct Messages<R> {
    source: R,
    limits: Limits,
    // How many bytes the messages had that were read.
    at: usize,
    is_done: bool,
}

impl<R: Read> Messages<R> {
    /// The same within other limits, which those that are still to come have to keep.
    #[must_use]
    pub fn within(self, limits: Limits) -> Self {
        Self { limits, ..self }
    }

    // The next message, unless the source ends before it.
    fn read(&mut self) -> Result<Option<OwnedMessage>, ReadError> {
        let mut bytes = Vec::new();
        self.read_up_to(FIXED_HEADER_LENGTH, &mut bytes)?;
        if bytes.is_empty() {
            return Ok(None);
        }
        if let Some(length) = wanted(&bytes, &self.limits) {
            self.read_up_to(length, &mut bytes)?;
        }
        let end = bytes.len();
        let fault = match OwnedMessage::parse_within(bytes, &self.limits) {
            Ok(message) => return Ok(Some(message)),
            Err(ParseError::Partial) => Fault { at: end, reason: Reason::Truncated },
            Err(ParseError::Refused(fault)) => fault,
        };
        Err(ReadError::Refused(Fault { at: self.at + fault.at, ..fault }))
    }

    // Reads on until there are so many bytes, or the source ends.
    fn read_up_to(&mut self, count: usize, bytes: &mut Vec<u8>) -> io::Result<()> {
        let left = count - bytes.len();
        self.source.by_ref().take(left as u64).read_to_end(bytes).map(drop)
    }
}

impl<R: Read> Iterator for Messages<R> {
    type Item = Result<OwnedMessage, ReadError>;

    fn next(&mut self) -> Option<Self::Item> {
        if self.is_done {
            return None;
        }
        let read = self.read();
        match &read {
            Ok(Some(message)) => self.at += message.bytes().len(),
            _ => self.is_done = true,
        }
        read.transpose()
    }
}

impl<R: Read> FusedIterator for Messages<R> {}
