//! One side of a connection: its handshake, and then messages, with no input and output.

use std::collections::VecDeque;
use std::error::Error;
use std::fmt;
use std::os::fd::OwnedFd;
use std::{mem, ptr};

use crate::{sys, Client, Fault, Kind, Limits, OutOfMemory, Server};

/// What came of some bytes.
#[derive(Clone, Debug, PartialEq, Eq)]
#[non_exhaustive]
pub enum Event {
    /// Nothing, and nothing will before so many bytes are at hand.
    Wants(usize),
    /// These bytes are to be sent: the handshake goes on.
    Send(Vec<u8>),
    /// The handshake succeeded, and what follows are messages.
    Begun {
        /// The bytes to send before any message.
        send: Vec<u8>,
        /// Whether both sides agreed to pass Unix file descriptors.
        descriptors: bool,
        /// The GUID of the server that accepted this client, as text. `None` at a server.
        guid: Option<String>,
    },
    /// A message, whose bytes are the last of those that were taken.
    Message {
        /// How many bytes it has.
        length: usize,
        /// The call that it answers, which waits no longer.
        call: Option<u64>,
        /// How many Unix file descriptors are its own, which [`Connection::fds`] returns.
        unix_fds: u32,
    },
    /// A message that is longer than those that are given. The next calls take its bytes, which need
    /// not be at hand at once.
    Passed {
        /// How many bytes it has.
        length: u64,
        /// Its type.
        kind: Kind,
        /// Its flags.
        flags: u8,
        /// Its serial.
        serial: u32,
    },
}

/// What a connection made of its bytes.
#[derive(Clone, Debug, PartialEq, Eq)]
pub struct Came {
    /// The number of bytes that were taken. Pass the others again.
    pub count: usize,
    /// What came of them.
    pub event: Event,
}

/// Why a connection took nothing, or no call waits.
#[derive(Clone, Copy, Debug, PartialEq, Eq)]
#[non_exhaustive]
pub enum ConnectionError {
    /// The bytes that follow those that were taken are no message. The connection is to be closed.
    Refused(Fault),
    /// A message lacks Unix file descriptors. The connection is to be closed.
    TooFew,
    /// The handshake failed, or the connection was refused before. It is to be closed.
    Over,
    /// The client's end has started.
    Started,
    /// The destination is no bus name.
    BadName,
    /// As many calls wait for a reply as may.
    Full,
    /// There is no memory: pass the same again.
    OutOfMemory,
}

impl fmt::Display for ConnectionError {
    fn fmt(&self, f: &mut fmt::Formatter<'_>) -> fmt::Result {
        match self {
            ConnectionError::Refused(fault) => fault.fmt(f),
            ConnectionError::TooFew => f.write_str("fewer file descriptors came than the message says"),
            ConnectionError::Over => f.write_str("the connection is over"),
            ConnectionError::Started => f.write_str("the end has started"),
            ConnectionError::BadName => f.write_str("the destination is no bus name"),
            ConnectionError::Full => f.write_str("too many calls wait for a reply"),
            ConnectionError::OutOfMemory => OutOfMemory.fmt(f),
        }
    }
}

impl Error for ConnectionError {}

/// An end that a [`Connection`] is made of.
#[derive(Debug)]
pub enum End {
    /// A client's, which has not started.
    Client(Client),
    /// A server's.
    Server(Server),
}

/// One side of a connection. Pass it the bytes that come, and send those that it gives.
///
/// ```
/// use dbus_wire::{Client, Connection, End, Event, External, Limits};
///
/// let client = Client::new(Some(External::AsReported), None)?;
/// let mut connection = Connection::new(End::Client(client), &Limits::default(), u32::MAX, 128)?;
/// let Event::Send(first) = connection.take(b"")?.event else { unreachable!() };
/// assert_eq!(first, b"\0AUTH EXTERNAL\r\n");
/// connection.take(b"DATA\r\n")?;
/// let came = connection.take(b"OK 0123456789abcdef0123456789abcdef\r\nl\x02")?;
/// assert!(matches!(came.event, Event::Begun { send, .. } if send == b"BEGIN\r\n"));
/// assert_eq!(connection.take(b"l\x02")?.event, Event::Wants(16));
/// # Ok::<(), Box<dyn std::error::Error>>(())
/// ```
#[derive(Debug)]
pub struct Connection {
    // A connection of the library's, from `new` until `drop`.
    raw: sys::dbus_wire_connection,
    is_client: bool,
    // Those that no message has, behind those of the message that came last.
    fds: VecDeque<OwnedFd>,
    own: usize,
}

// SAFETY: the header allows calls on a connection from any thread, if one returns before the next
// begins. Each takes the connection by a mutable reference, which sees to that.
unsafe impl Send for Connection {}

impl Connection {
    /// The side of this end, for messages within the limits, and so many calls that may wait. A
    /// message of more than `longest` bytes is passed over; from that of the limits on this has no
    /// effect.
    ///
    /// # Errors
    ///
    /// If a client's end has started, or if there is no memory.
    pub fn new(mut end: End, limits: &Limits, longest: u32, calls: u16) -> Result<Self, ConnectionError> {
        let is_client = matches!(end, End::Client(_));
        let handshake = match &mut end {
            End::Client(client) => client.raw(),
            End::Server(server) => server.raw(),
        };
        let mut raw = sys::dbus_wire_connection { inner: ptr::null_mut() };
        // SAFETY: references, as `sys` says, to what is no connection yet.
        match unsafe { sys::dbus_wire_connection_new(handshake, &limits.raw(), longest, calls.into(), &raw mut raw) } {
            sys::DBUS_WIRE_OK => Ok(Self { raw, is_client, fds: VecDeque::new(), own: 0 }),
            sys::DBUS_WIRE_NO_HANDSHAKE => Err(ConnectionError::Started),
            _ => Err(ConnectionError::OutOfMemory),
        }
    }

    /// Takes what the bytes begin with, which follow those that were taken, and returns what that
    /// is: at most one line of the handshake, or one message once all of it is there.
    ///
    /// # Errors
    ///
    /// If the bytes are no message, the handshake fails, or either happened before; or if there is
    /// no memory.
    pub fn take(&mut self, bytes: &[u8]) -> Result<Came, ConnectionError> {
        let mut told = sys::dbus_wire_connection_step::default();
        drop(self.fds());
        // SAFETY: a slice and references, as `sys` says; only calls write `raw` from `new` on.
        let answer = unsafe { sys::dbus_wire_connection_take(&raw mut self.raw, bytes.as_ptr(), bytes.len(), &raw mut told) };
        if answer != sys::DBUS_WIRE_OK {
            return Err(ConnectionError::OutOfMemory);
        }
        let event = match told.event {
            sys::DBUS_WIRE_EVENT_WANTS => Event::Wants(told.wanted as usize),
            sys::DBUS_WIRE_EVENT_UNSENT => Event::Send(self.unsent()),
            sys::DBUS_WIRE_EVENT_BEGUN => {
                let digits = || told.guid.iter().map(|byte| format!("{byte:02x}")).collect();
                let guid = self.is_client.then(digits);
                Event::Begun { send: self.unsent(), descriptors: told.descriptors == 1, guid }
            }
            sys::DBUS_WIRE_EVENT_MESSAGE => {
                let call = (told.is_reply == 1).then_some(told.call);
                self.own = told.unix_fds as usize;
                Event::Message { length: told.wanted as usize, call, unix_fds: told.unix_fds }
            }
            sys::DBUS_WIRE_EVENT_PASSED => Event::Passed {
                length: told.wanted,
                kind: Kind::of(told.kind.into()),
                flags: told.flags as u8,
                serial: told.serial,
            },
            sys::DBUS_WIRE_EVENT_REFUSED => {
                return Err(ConnectionError::Refused(Fault::new(told.offset, told.reason, told.field)))
            }
            sys::DBUS_WIRE_EVENT_TOO_FEW => return Err(ConnectionError::TooFew),
            _ => return Err(ConnectionError::Over),
        };
        Ok(Came { count: told.count as usize, event })
    }

    /// Keeps a descriptor that came with a read, until the message ends that it belongs to. Call it
    /// before the read's bytes are passed; `at_hand` bytes were there before the read and are not
    /// taken. False if it is closed, and no message has any from now on: they were not agreed on, 253
    /// wait, or a message was passed over, which may have had some.
    pub fn keep_fd(&mut self, fd: OwnedFd, at_hand: usize) -> bool {
        // SAFETY: a reference, as `sys` says; only calls write `raw` from `new` on.
        let answer = unsafe { sys::dbus_wire_connection_descriptor(&raw mut self.raw, at_hand as u64) };
        if answer == sys::DBUS_WIRE_OK {
            self.fds.push_back(fd);
        }
        answer == sys::DBUS_WIRE_OK
    }

    /// The descriptors of the message that came last, once. The next call of [`Connection::take`]
    /// closes those that are left.
    pub fn fds(&mut self) -> Vec<OwnedFd> {
        let own = mem::take(&mut self.own);
        self.fds.drain(..own).collect()
    }

    /// The serial of a message that is sent now and waits for no reply. It is never 0, nor that of
    /// a call that waits.
    pub fn serial(&mut self) -> u32 {
        let mut serial = 0;
        // SAFETY: references, as `sys` says; only calls write `raw` from `new` on.
        unsafe { sys::dbus_wire_connection_serial(&raw mut self.raw, &raw mut serial) };
        serial
    }

    /// The same of a call to this name, or to none, which waits from now on: [`Event::Message`] of
    /// its reply has this number.
    ///
    /// # Errors
    ///
    /// If the name is no bus name, as many calls wait as may, or there is no memory.
    pub fn call(&mut self, destination: Option<&str>, number: u64) -> Result<u32, ConnectionError> {
        let (name, mut serial) = (destination.unwrap_or_default(), 0);
        // SAFETY: a slice and references, as `sys` says; only calls write `raw` from `new` on.
        let answer =
            unsafe { sys::dbus_wire_connection_call(&raw mut self.raw, name.as_ptr(), name.len(), number, &raw mut serial) };
        match answer {
            sys::DBUS_WIRE_OK => Ok(serial),
            sys::DBUS_WIRE_REFUSED => Err(ConnectionError::BadName),
            sys::DBUS_WIRE_NO_ROOM => Err(ConnectionError::Full),
            _ => Err(ConnectionError::OutOfMemory),
        }
    }

    /// Gives up the call of this serial, which waits no longer: its number, if it waits.
    pub fn give_up(&mut self, serial: u32) -> Option<u64> {
        let mut number = 0;
        // SAFETY: references, as `sys` says; only calls write `raw` from `new` on.
        let answer = unsafe { sys::dbus_wire_connection_give_up(&raw mut self.raw, serial, &raw mut number) };
        (answer == sys::DBUS_WIRE_OK).then_some(number)
    }

    // The bytes to send, which are then sent.
    fn unsent(&mut self) -> Vec<u8> {
        let (mut room, mut count) = (vec![0; crate::handshake::REPLY_ROOM], 0);
        // SAFETY: a slice and references, as `sys` says; only calls write `raw` from `new` on.
        let answer =
            unsafe { sys::dbus_wire_connection_unsent(&raw mut self.raw, room.as_mut_ptr(), room.len(), &raw mut count) };
        debug_assert_eq!(answer, sys::DBUS_WIRE_OK);
        room.truncate(count as usize);
        room
    }
}

impl Drop for Connection {
    fn drop(&mut self) {
        // SAFETY: a reference, as `sys` says; only calls write `raw` from `new` on, and nothing
        // uses it after its drop.
        unsafe { sys::dbus_wire_connection_free(&raw mut self.raw) };
    }
}
