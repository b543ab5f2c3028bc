//! A message built of its parts, or changed by them.

use std::error::Error;
use std::fmt;
use std::num::NonZeroU32;
use std::ops::Deref;

use crate::{sys, Fault, Kind, Limits, Message, Order};

/// The parts of a message, of which [`build`] makes it, and by which [`rebuild`] changes one. Those
/// of one at hand are [`Message::parts`](crate::Message::parts).
#[derive(Clone, Copy, Debug, PartialEq, Eq)]
pub struct Parts<'a> {
    /// The byte order, which is also that of the body.
    pub order: Order,
    /// The type.
    pub kind: Kind,
    /// All bits of the flags.
    pub flags: u8,
    /// The serial, which is not 0 in a message.
    pub serial: u32,
    /// The PATH field, an object path.
    pub path: Option<&'a str>,
    /// The INTERFACE field, an interface name.
    pub interface: Option<&'a str>,
    /// The MEMBER field, a member name.
    pub member: Option<&'a str>,
    /// The ERROR_NAME field, an error name.
    pub error_name: Option<&'a str>,
    /// The REPLY_SERIAL field, the serial of the call that this replies to.
    pub reply_serial: Option<NonZeroU32>,
    /// The DESTINATION field, a bus name.
    pub destination: Option<&'a str>,
    /// The SENDER field, a bus name.
    pub sender: Option<&'a str>,
    /// The SIGNATURE field, the types of the body's values. Without it the body has none.
    pub signature: Option<&'a str>,
    /// The number in the UNIX_FDS field, or 0 for no such field.
    pub unix_fds: u32,
    /// The bytes of the body, as they are in a message of the same order.
    pub body: &'a [u8],
}

impl Parts<'_> {
    /// The parts of a little-endian message of this type and serial, with no flags, no fields and
    /// no body.
    #[must_use]
    pub fn new(kind: Kind, serial: u32) -> Self {
        Self {
            order: Order::Little,
            kind,
            flags: 0,
            serial,
            path: None,
            interface: None,
            member: None,
            error_name: None,
            reply_serial: None,
            destination: None,
            sender: None,
            signature: None,
            unix_fds: 0,
            body: &[],
        }
    }
}

/// Why [`build`], [`rebuild`] or [`Message::from_json`] built nothing.
#[derive(Clone, Copy, Debug, PartialEq, Eq)]
#[non_exhaustive]
pub enum BuildError {
    /// No message within the limits has these parts, or a line of JSON spells none. The fault is at
    /// an offset from the first byte that the parts spell, or of the line; or at 0.
    Refused(BuildFault),
    /// There is no memory for it in the library.
    OutOfMemory,
}

/// Where and why a message is not made.
#[derive(Clone, Copy, Debug, PartialEq, Eq, Hash)]
#[non_exhaustive]
pub struct BuildFault {
    /// Where and why.
    pub fault: Fault,
    /// The code of the header field that is at fault, or missing; 0 if none is.
    pub field: u8,
}

// The parts of a message by the codes of their header fields.
const PARTS: [&str; 10] =
    ["", "path", "interface", "member", "error_name", "reply_serial", "destination", "sender", "signature", "unix_fds"];

impl BuildFault {
    pub(crate) fn new(told: &sys::dbus_wire_checked) -> Self {
        Self { fault: Fault::new(told.offset, told.reason, told.field), field: told.field as u8 }
    }
}

impl Deref for BuildFault {
    type Target = Fault;

    fn deref(&self) -> &Fault {
        &self.fault
    }
}

impl fmt::Display for BuildFault {
    fn fmt(&self, f: &mut fmt::Formatter<'_>) -> fmt::Result {
        match PARTS.get(usize::from(self.field)) {
            Some(part) if !part.is_empty() => write!(f, "{part}: {}", self.fault),
            _ => self.fault.fmt(f),
        }
    }
}

impl Error for BuildFault {}

impl fmt::Display for BuildError {
    fn fmt(&self, f: &mut fmt::Formatter<'_>) -> fmt::Result {
        match self {
            BuildError::Refused(fault) => fault.fmt(f),
            BuildError::OutOfMemory => f.write_str("out of memory"),
        }
    }
}

impl Error for BuildError {}

/// The bytes of the message within the limits that has exactly these parts, its header fields in
/// the order of their codes.
///
/// So of the parts of a message at hand it makes that message only if its fields are in this order,
/// and none is of another code; [`rebuild`] changes a message and keeps its fields.
///
/// # Errors
///
/// If no message within the limits has these parts, or if memory runs out in the library.
pub fn build(parts: &Parts<'_>, limits: &Limits) -> Result<Vec<u8>, BuildError> {
    built(parts, 0, |draft, out, room, told| {
        // SAFETY: as `built` says.
        unsafe { sys::dbus_wire_build(draft, &limits.raw(), out, room, told) }
    })
}

/// The bytes of the message, changed as the parts say. Each header field stays in its place, as the
/// parts have it, and so does each of a code that the specification does not name. Fields that the
/// message does not have come last, in the order of their codes. Its own parts leave it as it is,
/// byte for byte. A message keeps its byte order: parts of the other one are refused.
///
/// ```
/// use dbus_wire::{build, rebuild, BuildError, Kind, Limits, Message, Parts};
///
/// let signal = Parts { path: Some("/"), interface: Some("a.b"), member: Some("C"), ..Parts::new(Kind::Signal, 1) };
/// let bytes = build(&signal, &Limits::default())?;
/// let message = Message::parse(&bytes).unwrap();
/// let sent = rebuild(&message, &Parts { sender: Some(":1.2"), ..message.parts() }, &Limits::default())?;
/// assert_eq!(Message::parse(&sent).unwrap().sender(), Some(":1.2"));
/// assert_eq!(rebuild(&message, &message.parts(), &Limits::default())?, message.bytes());
/// # Ok::<(), BuildError>(())
/// ```
///
/// # Errors
///
/// As of [`build`], and if the parts have the other byte order.
pub fn rebuild(message: &Message<'_>, parts: &Parts<'_>, limits: &Limits) -> Result<Vec<u8>, BuildError> {
    let bytes = message.bytes();
    built(parts, bytes.len(), |draft, out, room, told| {
        // SAFETY: a slice, and as `built` says.
        unsafe { sys::dbus_wire_rebuild(bytes.as_ptr(), bytes.len(), &limits.raw(), draft, out, room, told) }
    })
}

/// The bytes of the reply to a call: what [`build`] makes of the parts, but in the byte order of the
/// call, with its serial as the reply serial, and with its sender, if it has one, as the destination.
/// It is an error if the parts have an error name, and else a method return, and expects no reply
/// itself. The body is spelled in the order of the call.
///
/// ```
/// use dbus_wire::{build, reply_to, Body, Kind, Limits, Message, Parts};
///
/// # let get = Parts { path: Some("/"), member: Some("Get"), sender: Some(":1.7"), ..Parts::new(Kind::MethodCall, 5) };
/// # let get = build(&get, &Limits::default())?;
/// # let call = Message::parse(&get)?;
/// let mut body = Body::new(call.order());
/// body.array(8, |body| {
///     body.begin_struct();
///     body.text("Volume")?;
///     body.signature("d")?;
///     body.double(0.5);
///     Ok(())
/// })?;
/// let parts = Parts { signature: Some("a{sv}"), body: body.bytes(), ..Parts::new(Kind::MethodReturn, 1) };
/// let bytes = reply_to(&call, &parts, &Limits::default())?;
/// assert_eq!(Message::parse(&bytes)?.destination(), call.sender());
/// # Ok::<(), Box<dyn std::error::Error>>(())
/// ```
///
/// # Errors
///
/// As of [`build`], and if the message is no call.
pub fn reply_to(call: &Message<'_>, parts: &Parts<'_>, limits: &Limits) -> Result<Vec<u8>, BuildError> {
    let bytes = call.bytes();
    built(parts, bytes.len(), |draft, out, room, told| {
        // SAFETY: a slice, and as `built` says.
        unsafe { sys::dbus_wire_reply_to(bytes.as_ptr(), bytes.len(), &limits.raw(), draft, out, room, told) }
    })
}

// What the call makes of the parts, and of other bytes of this length. It is passed the draft, whose
// texts are slices, the start of as much room as it says, which nothing else points to, and a
// reference.
fn built(
    parts: &Parts<'_>,
    others: usize,
    call: impl FnOnce(*const sys::dbus_wire_draft, *mut u8, usize, *mut sys::dbus_wire_checked) -> u32,
) -> Result<Vec<u8>, BuildError> {
    let draft = draft_of(parts);
    let texts = [draft.path, draft.interface, draft.member, draft.error_name, draft.destination, draft.sender, draft.signature];
    // Each of seven texts has 16 bytes beside its own at most, and so has each number, the fixed
    // header and the body.
    let mut out = vec![0; others + texts.map(|text| text.length).iter().sum::<usize>() + parts.body.len() + 11 * 16];
    let mut told = sys::dbus_wire_checked::default();
    match call(&raw const draft, out.as_mut_ptr(), out.len(), &raw mut told) {
        sys::DBUS_WIRE_OK => {
            out.truncate(told.length as usize);
            Ok(out)
        }
        sys::DBUS_WIRE_NO_MEMORY => Err(BuildError::OutOfMemory),
        sys::DBUS_WIRE_NO_ROOM => unreachable!("a header of {} bytes", told.length),
        _ => Err(BuildError::Refused(BuildFault::new(&told))),
    }
}

// The parts as the calls take them.
fn draft_of(parts: &Parts<'_>) -> sys::dbus_wire_draft {
    let given = |text: Option<&str>| {
        let bytes = text.unwrap_or_default();
        sys::dbus_wire_draft_text { bytes: bytes.as_ptr(), length: bytes.len(), is_there: text.is_some().into() }
    };
    sys::dbus_wire_draft {
        order: parts.order.code().into(),
        kind: parts.kind.number().into(),
        flags: parts.flags.into(),
        serial: parts.serial,
        reply_serial: parts.reply_serial.map_or(0, NonZeroU32::get),
        unix_fds: parts.unix_fds,
        path: given(parts.path),
        interface: given(parts.interface),
        member: given(parts.member),
        error_name: given(parts.error_name),
        destination: given(parts.destination),
        sender: given(parts.sender),
        signature: given(parts.signature),
        body: parts.body.as_ptr(),
        body_length: parts.body.len(),
    }
}
