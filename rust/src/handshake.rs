//! Both ends of the authentication handshake.

use std::error::Error;
use std::fmt;
use std::io::{self, ErrorKind, Read, Write};
use std::ptr;

use crate::{sys, OutOfMemory};

// As the header's DBUS_WIRE_REPLY_ROOM and DBUS_WIRE_GUID_LENGTH.
pub(crate) const REPLY_ROOM: usize = 528;
const GUID_LENGTH: usize = 32;

/// The status of a handshake.
#[derive(Clone, Copy, Debug, PartialEq, Eq, Hash)]
pub enum Status {
    /// It goes on.
    Talking,
    /// It succeeded: the bytes that are not taken are messages.
    Begun,
    /// It failed: the connection is to be closed.
    Closed,
}

/// What an end did with a piece.
#[derive(Clone, Copy, Debug, PartialEq, Eq)]
pub struct Step<'a> {
    /// The number of bytes of the piece that were taken, at most those of one line. Pass the others
    /// again.
    pub count: usize,
    /// The bytes to send to the peer, which may be none.
    pub reply: &'a [u8],
    /// The status of the handshake now.
    pub status: Status,
}

/// How many lines of two kinds an end sends at most. The handshake fails at the line that it would
/// answer by one more.
#[derive(Clone, Copy, Debug, PartialEq, Eq, Hash)]
pub struct Bounds {
    /// How many lines of REJECTED. A client sends none.
    pub rejections: u32,
    /// How many lines that leave it in its state: ERROR, and AGREE_UNIX_FD of a server.
    pub errors: u32,
}

/// Why an end is not made.
#[derive(Clone, Copy, Debug, PartialEq, Eq, Hash)]
#[non_exhaustive]
pub enum HandshakeError {
    /// The GUID of a server is not 32 hexadecimal digits.
    BadGuid,
    /// The trace of a client has over 255 bytes.
    LongTrace,
    /// There is no memory for it.
    OutOfMemory,
}

impl fmt::Display for HandshakeError {
    fn fmt(&self, f: &mut fmt::Formatter<'_>) -> fmt::Result {
        match self {
            HandshakeError::BadGuid => f.write_str("the GUID is not 32 hexadecimal digits"),
            HandshakeError::LongTrace => f.write_str("the trace has more than 255 bytes"),
            HandshakeError::OutOfMemory => OutOfMemory.fmt(f),
        }
    }
}

impl Error for HandshakeError {}

#[derive(Debug)]
struct Handshake {
    // An end of the library's, until `drop`; or none.
    raw: sys::dbus_wire_handshake,
    room: [u8; REPLY_ROOM],
}

// SAFETY: the header allows calls on an end from any thread, if one returns before the next begins.
// Each takes the end by a reference, and it is not `Sync`, which sees to that.
unsafe impl Send for Handshake {}

impl Handshake {
    fn none() -> Self {
        Self { raw: sys::dbus_wire_handshake { inner: ptr::null_mut() }, room: [0; REPLY_ROOM] }
    }

    fn take(&mut self, piece: &[u8]) -> Result<Step<'_>, OutOfMemory> {
        let mut told = sys::dbus_wire_handshake_step::default();
        let (raw, room) = (&mut self.raw, &mut self.room);
        // SAFETY: slices and references, as `sys` says; only calls write `raw`.
        let answer = unsafe {
            sys::dbus_wire_handshake_take(raw, piece.as_ptr(), piece.len(), room.as_mut_ptr(), room.len(), &raw mut told)
        };
        let status = match answer {
            sys::DBUS_WIRE_PARTIAL => Status::Talking,
            sys::DBUS_WIRE_OK => Status::Begun,
            sys::DBUS_WIRE_REFUSED => Status::Closed,
            sys::DBUS_WIRE_NO_MEMORY => return Err(OutOfMemory),
            answer => unreachable!("an end answers {answer}"),
        };
        Ok(Step { count: told.count as usize, reply: &self.room[..told.reply as usize], status })
    }

    fn shake_hands(&mut self, mut connection: impl Read + Write) -> io::Result<()> {
        let mut byte = [0];
        let mut piece = &byte[..0];
        loop {
            let step = self.take(piece).map_err(|_| ErrorKind::OutOfMemory)?;
            // After BEGIN a client may be gone, to which nothing can be sent, no bytes either.
            if !step.reply.is_empty() {
                connection.write_all(step.reply)?;
            }
            match step.status {
                // A byte at a time: the last line may have the first message behind it.
                Status::Talking => connection.read_exact(&mut byte)?,
                Status::Begun => return Ok(()),
                Status::Closed => return Err(io::Error::new(ErrorKind::ConnectionRefused, "the handshake failed")),
            }
            piece = &byte;
        }
    }
}

impl Drop for Handshake {
    fn drop(&mut self) {
        // SAFETY: a reference, as `sys` says; only calls write `raw`, and nothing uses it after its
        // drop.
        unsafe { sys::dbus_wire_handshake_free(&raw mut self.raw) };
    }
}

// What both ends can do.
macro_rules! ends {
    ($($end:ident)*) => {$(
        impl $end {
            /// Bounds what the end sends, from here on. A server for anybody needs bounds.
            ///
            /// ```
            /// use dbus_wire::{Bounds, Server, Status};
            ///
            /// let mut server = Server::new("0123456789abcdef0123456789abcdef", Some(0), false)?;
            /// server.set_bounds(Bounds { rejections: 1, errors: 6 });
            /// assert_eq!(server.take(b"\0AUTH\r\n")?.reply, b"REJECTED EXTERNAL\r\n");
            /// assert_eq!(server.take(b"AUTH\r\n")?.status, Status::Closed);
            /// # Ok::<(), Box<dyn std::error::Error>>(())
            /// ```
            pub fn set_bounds(&mut self, Bounds { rejections, errors }: Bounds) {
                // SAFETY: a reference, as `sys` says; only calls write `raw`.
                unsafe { sys::dbus_wire_handshake_bound(&raw mut self.0.raw, rejections, errors) };
            }

            /// Takes at most one line of the piece, with a client's byte 0 before the first, and
            /// answers it. The first call of a client starts the handshake: it takes nothing, and its
            /// reply is the byte 0 and the first line. Once the handshake succeeded or failed it takes
            /// nothing.
            ///
            /// # Errors
            ///
            /// If there is no memory: then nothing is changed, so that the same piece may be passed
            /// again.
            pub fn take(&mut self, piece: &[u8]) -> Result<Step<'_>, OutOfMemory> {
                self.0.take(piece)
            }

            /// Shakes hands with the other end of a connection that blocks, from the first byte on. It
            /// reads no byte of what follows, which [`messages`](crate::messages) reads.
            ///
            /// # Errors
            ///
            /// With `ConnectionRefused` if the handshake fails, with `OutOfMemory` if memory runs out,
            /// and else what the connection returned.
            pub fn shake_hands(&mut self, connection: impl Read + Write) -> io::Result<()> {
                self.0.shake_hands(connection)
            }

            // For a connection, which takes the end out of it.
            pub(crate) fn raw(&mut self) -> *mut sys::dbus_wire_handshake {
                &raw mut self.0.raw
            }

            /// Whether both ends agreed to pass Unix file descriptors, once the handshake succeeded.
            #[must_use]
            pub fn agreed(&self) -> bool {
                // SAFETY: a reference, as `sys` says; only calls write `raw`.
                unsafe { sys::dbus_wire_handshake_agreed(&raw const self.0.raw) == sys::DBUS_WIRE_OK }
            }
        }
    )*};
}

ends! { Server Client }

fn mechanisms(external: u32, user: u32, anonymous: bool, descriptors: bool) -> sys::dbus_wire_mechanisms {
    sys::dbus_wire_mechanisms { external, user, anonymous: anonymous.into(), descriptors: descriptors.into() }
}

/// A server's end of the handshake.
///
/// ```
/// use dbus_wire::{Server, Status};
///
/// let mut server = Server::new("0123456789abcdef0123456789abcdef", Some(1000), false)?;
/// let mut rest = b"\0AUTH EXTERNAL 31303030\r\nBEGIN\r\nl\x01".as_slice();
/// let step = server.take(rest)?;
/// assert_eq!(step.reply, b"OK 0123456789abcdef0123456789abcdef\r\n");
/// rest = &rest[step.count..];
/// let step = server.take(rest)?;
/// assert_eq!((step.status, &rest[step.count..]), (Status::Begun, b"l\x01".as_slice()));
/// # Ok::<(), Box<dyn std::error::Error>>(())
/// ```
#[derive(Debug)]
pub struct Server(Handshake);

impl Server {
    /// The end of a server of the GUID whose 32 hexadecimal digits are given. It offers EXTERNAL if
    /// it is given the client's user, and ANONYMOUS, which lets everybody in, if `anonymous` is
    /// true.
    ///
    /// **The user has to be the one that the transport reports**, as `SO_PEERCRED` of a Unix socket
    /// does, and not the one that is expected: a client that names no user is let in as that one.
    ///
    /// # Errors
    ///
    /// If the GUID is none, or if there is no memory.
    pub fn new(guid: &str, user: Option<u32>, anonymous: bool) -> Result<Self, HandshakeError> {
        Self::made(guid, user, anonymous, false)
    }

    /// As [`Server::new`], and the server agrees to pass Unix file descriptors if the client asks
    /// for it: for a transport that passes them, as a Unix socket does.
    ///
    /// ```
    /// let mut server = dbus_wire::Server::with_descriptors("0123456789abcdef0123456789abcdef", Some(0), false)?;
    /// server.take(b"\0AUTH EXTERNAL 30\r\n")?;
    /// assert_eq!(server.take(b"NEGOTIATE_UNIX_FD\r\n")?.reply, b"AGREE_UNIX_FD\r\n");
    /// server.take(b"BEGIN\r\n")?;
    /// assert!(server.agreed());
    /// # Ok::<(), Box<dyn std::error::Error>>(())
    /// ```
    ///
    /// # Errors
    ///
    /// As of [`Server::new`].
    pub fn with_descriptors(guid: &str, user: Option<u32>, anonymous: bool) -> Result<Self, HandshakeError> {
        Self::made(guid, user, anonymous, true)
    }

    fn made(guid: &str, user: Option<u32>, anonymous: bool, descriptors: bool) -> Result<Self, HandshakeError> {
        let external = if user.is_some() { sys::DBUS_WIRE_EXTERNAL_AS_USER } else { 0 };
        let mechanisms = mechanisms(external, user.unwrap_or(0), anonymous, descriptors);
        let mut made = Handshake::none();
        // SAFETY: a slice and references, as `sys` says, to what is no end yet.
        match unsafe { sys::dbus_wire_server_new(guid.as_ptr(), guid.len(), &raw const mechanisms, &raw mut made.raw) } {
            sys::DBUS_WIRE_OK => Ok(Self(made)),
            sys::DBUS_WIRE_REFUSED => Err(HandshakeError::BadGuid),
            _ => Err(HandshakeError::OutOfMemory),
        }
    }
}

/// As whom a client asks to be let in by EXTERNAL.
#[derive(Clone, Copy, Debug, PartialEq, Eq, Hash)]
#[non_exhaustive]
pub enum External {
    /// As the user of this number.
    AsUser(u32),
    /// As the user that the transport reports to the server.
    AsReported,
}

/// A client's end of the handshake.
///
/// ```
/// use dbus_wire::{Client, External, Status};
///
/// let mut client = Client::new(Some(External::AsUser(1000)), None)?;
/// assert_eq!(client.take(b"")?.reply, b"\0AUTH EXTERNAL 31303030\r\n");
/// let step = client.take(b"OK 0123456789ABCDEF0123456789abcdef\r\n")?;
/// assert_eq!((step.status, step.reply), (Status::Begun, b"BEGIN\r\n".as_slice()));
/// assert_eq!(client.guid().as_deref(), Some("0123456789abcdef0123456789abcdef"));
/// # Ok::<(), Box<dyn std::error::Error>>(())
/// ```
#[derive(Debug)]
pub struct Client(Handshake);

impl Client {
    /// The end of a client that asks for EXTERNAL, if that is given, and then for ANONYMOUS, if its
    /// trace is given, which may be empty and has at most 255 bytes.
    ///
    /// # Errors
    ///
    /// If the trace is too long, or if there is no memory.
    pub fn new(external: Option<External>, trace: Option<&[u8]>) -> Result<Self, HandshakeError> {
        Self::made(external, trace, false)
    }

    /// As [`Client::new`], and the client asks a server that accepts it to pass Unix file
    /// descriptors: for a transport that passes them, as a Unix socket does.
    ///
    /// ```
    /// use dbus_wire::{Client, External};
    ///
    /// let mut client = Client::with_descriptors(Some(External::AsUser(0)), None)?;
    /// client.take(b"")?;
    /// let step = client.take(b"OK 0123456789abcdef0123456789abcdef\r\n")?;
    /// assert_eq!(step.reply, b"NEGOTIATE_UNIX_FD\r\n");
    /// assert_eq!(client.take(b"ERROR\r\n")?.reply, b"BEGIN\r\n");
    /// assert!(!client.agreed());
    /// # Ok::<(), Box<dyn std::error::Error>>(())
    /// ```
    ///
    /// # Errors
    ///
    /// As of [`Client::new`].
    pub fn with_descriptors(external: Option<External>, trace: Option<&[u8]>) -> Result<Self, HandshakeError> {
        Self::made(external, trace, true)
    }

    fn made(external: Option<External>, trace: Option<&[u8]>, descriptors: bool) -> Result<Self, HandshakeError> {
        let (external, user) = match external {
            None => (0, 0),
            Some(External::AsUser(user)) => (sys::DBUS_WIRE_EXTERNAL_AS_USER, user),
            Some(External::AsReported) => (sys::DBUS_WIRE_EXTERNAL_AS_REPORTED, 0),
        };
        let mechanisms = mechanisms(external, user, trace.is_some(), descriptors);
        let trace = trace.unwrap_or(&[]);
        let mut made = Handshake::none();
        // SAFETY: a slice and references, as `sys` says, to what is no end yet.
        match unsafe { sys::dbus_wire_client_new(&raw const mechanisms, trace.as_ptr(), trace.len(), &raw mut made.raw) } {
            sys::DBUS_WIRE_OK => Ok(Self(made)),
            sys::DBUS_WIRE_REFUSED => Err(HandshakeError::LongTrace),
            _ => Err(HandshakeError::OutOfMemory),
        }
    }

    /// The server's GUID, as 32 hexadecimal digits in lower case, once it accepted the client.
    #[must_use]
    pub fn guid(&self) -> Option<String> {
        let mut text = [0; GUID_LENGTH];
        // SAFETY: a slice and a reference, as `sys` says; only calls write `raw`.
        let answer = unsafe { sys::dbus_wire_handshake_guid(&raw const self.0.raw, text.as_mut_ptr(), text.len()) };
        (answer == sys::DBUS_WIRE_OK).then(|| text.iter().copied().map(char::from).collect())
    }
}
