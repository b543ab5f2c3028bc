//! A message that borrows its bytes.

mod owned;

use std::fmt;
use std::num::NonZeroU32;

pub use owned::OwnedMessage;

use crate::value::{body_items, items_written, text_at};
use crate::{byteswap, sys, Answer, Fields, FlatItem, Limits, Order, ParseError, Parts, Values};

/// The type of a message.
#[derive(Clone, Copy, Debug, PartialEq, Eq, Hash)]
pub enum Kind {
    /// METHOD_CALL, 1.
    MethodCall,
    /// METHOD_RETURN, 2.
    MethodReturn,
    /// ERROR, 3.
    Error,
    /// SIGNAL, 4.
    Signal,
    /// Another, which is not 0. Such a message is to be ignored.
    Other(u8),
}

impl Kind {
    pub(crate) fn of(number: u32) -> Self {
        match number {
            sys::DBUS_WIRE_TYPE_METHOD_CALL => Kind::MethodCall,
            sys::DBUS_WIRE_TYPE_METHOD_RETURN => Kind::MethodReturn,
            sys::DBUS_WIRE_TYPE_ERROR => Kind::Error,
            sys::DBUS_WIRE_TYPE_SIGNAL => Kind::Signal,
            other => Kind::Other(other as u8),
        }
    }

    pub(crate) fn number(self) -> u8 {
        match self {
            Kind::MethodCall => 1,
            Kind::MethodReturn => 2,
            Kind::Error => 3,
            Kind::Signal => 4,
            Kind::Other(number) => number,
        }
    }
}

/// The flags of a message.
#[derive(Clone, Copy, Debug, PartialEq, Eq, Hash)]
pub struct Flags(u8);

impl Flags {
    /// All bits; those that the specification gives no name have no meaning.
    #[must_use]
    pub fn bits(self) -> u8 {
        self.0
    }

    /// NO_REPLY_EXPECTED: the sender of a call expects no reply.
    #[must_use]
    pub fn no_reply_expected(self) -> bool {
        self.has(sys::DBUS_WIRE_FLAG_NO_REPLY_EXPECTED)
    }

    /// NO_AUTO_START: the bus is not to start an owner for the destination.
    #[must_use]
    pub fn no_auto_start(self) -> bool {
        self.has(sys::DBUS_WIRE_FLAG_NO_AUTO_START)
    }

    /// ALLOW_INTERACTIVE_AUTHORIZATION: the caller can wait for a person to authorize.
    #[must_use]
    pub fn allow_interactive_authorization(self) -> bool {
        self.has(sys::DBUS_WIRE_FLAG_ALLOW_INTERACTIVE_AUTHORIZATION)
    }

    fn has(self, flag: u32) -> bool {
        u32::from(self.0) & flag != 0
    }
}

/// A message that is known to be valid, and borrows its bytes. Its texts are among them: nothing is
/// copied.
#[derive(Clone, Copy)]
pub struct Message<'a> {
    // Those of the message alone.
    bytes: &'a [u8],
    parts: sys::dbus_wire_parts,
}

impl<'a> Message<'a> {
    /// The message that the bytes begin with, within the specification's limits. Bytes after it are
    /// not looked at.
    ///
    /// # Errors
    ///
    /// [`ParseError::Partial`] if more bytes are needed, and [`ParseError::Refused`] if no message
    /// begins so, whatever follows.
    pub fn parse(bytes: &'a [u8]) -> Result<Self, ParseError> {
        Self::parse_within(bytes, &Limits::default())
    }

    /// The message within the limits that the bytes begin with. Bytes after it are not looked at.
    ///
    /// # Errors
    ///
    /// As of [`Message::parse`].
    pub fn parse_within(bytes: &'a [u8], limits: &Limits) -> Result<Self, ParseError> {
        let (mut parts, mut told) = Default::default();
        // SAFETY: a slice and references, as `sys` says.
        let answer =
            unsafe { sys::dbus_wire_parts_of(bytes.as_ptr(), bytes.len(), &limits.raw(), &raw mut parts, &raw mut told) };
        Self::of(bytes, parts, Answer::new(answer, &told))
    }

    /// The message within the limits that the bytes begin with, and the values of its body, by one
    /// look over it.
    ///
    /// ```
    /// use dbus_wire::{Limits, Message};
    ///
    /// # let signal = b"l\x04\0\x01\x07\0\0\0\x01\0\0\0\x37\0\0\0\x01\x01o\0\x01\0\0\0/\0\0\0\0\0\0\0\x02\x01s\0\x03\0\0\0a.b\0\0\0\0\0\x03\x01s\0\x01\0\0\0c\0\0\0\0\0\0\0\x08\x01g\0\x01s\0\0\x02\0\0\0hi\0";
    /// let (message, body) = Message::parse_with_body(signal, &Limits::default())?;
    /// println!("{:?}: {:?}", message.member(), body.collect::<Vec<_>>());
    /// # Ok::<(), dbus_wire::ParseError>(())
    /// ```
    ///
    /// # Errors
    ///
    /// As of [`Message::parse`].
    pub fn parse_with_body(bytes: &'a [u8], limits: &Limits) -> Result<(Self, Values<'a>), ParseError> {
        let (mut parts, mut told, limits) = (Default::default(), Default::default(), limits.raw());
        let (answer, items) = items_written(bytes.len(), |items, room, count| {
            // SAFETY: a slice, room and references, as `sys` says.
            unsafe {
                sys::dbus_wire_read(
                    bytes.as_ptr(),
                    bytes.len(),
                    &raw const limits,
                    &raw mut parts,
                    items,
                    room,
                    count,
                    &raw mut told,
                )
            }
        });
        let message = Self::of(bytes, parts, Answer::new(answer, &told))?;
        Ok((message, Values::of_items(message.bytes, items, message.signature().unwrap_or_default())))
    }

    // The message of these parts that the bytes begin with, if they do.
    fn of(bytes: &'a [u8], parts: sys::dbus_wire_parts, answer: Answer) -> Result<Self, ParseError> {
        match answer {
            Answer::Whole { length, .. } => Ok(Self { bytes: &bytes[..length], parts }),
            Answer::Partial => Err(ParseError::Partial),
            Answer::Refused(fault) => Err(ParseError::Refused(fault)),
        }
    }

    /// The bytes of the message, without what follows it.
    #[must_use]
    pub fn bytes(&self) -> &'a [u8] {
        self.bytes
    }

    /// Its byte order.
    #[must_use]
    pub fn order(&self) -> Order {
        Order::of(self.parts.order)
    }

    /// Its type.
    #[must_use]
    pub fn kind(&self) -> Kind {
        Kind::of(self.parts.kind)
    }

    /// Its flags.
    #[must_use]
    pub fn flags(&self) -> Flags {
        Flags(self.parts.flags as u8)
    }

    /// Its serial, which is not 0.
    #[must_use]
    pub fn serial(&self) -> u32 {
        self.parts.serial
    }

    /// The PATH field, an object path.
    #[must_use]
    pub fn path(&self) -> Option<&'a str> {
        self.field(&self.parts.path)
    }

    /// The INTERFACE field, an interface name.
    #[must_use]
    pub fn interface(&self) -> Option<&'a str> {
        self.field(&self.parts.interface)
    }

    /// The MEMBER field, a member name.
    #[must_use]
    pub fn member(&self) -> Option<&'a str> {
        self.field(&self.parts.member)
    }

    /// The ERROR_NAME field, an error name.
    #[must_use]
    pub fn error_name(&self) -> Option<&'a str> {
        self.field(&self.parts.error_name)
    }

    /// The REPLY_SERIAL field, the serial of the call that this replies to.
    #[must_use]
    pub fn reply_serial(&self) -> Option<NonZeroU32> {
        NonZeroU32::new(self.parts.reply_serial)
    }

    /// The DESTINATION field, a bus name.
    #[must_use]
    pub fn destination(&self) -> Option<&'a str> {
        self.field(&self.parts.destination)
    }

    /// The SENDER field, a bus name.
    #[must_use]
    pub fn sender(&self) -> Option<&'a str> {
        self.field(&self.parts.sender)
    }

    /// The SIGNATURE field, the types of the body's values. Without it the body has none.
    #[must_use]
    pub fn signature(&self) -> Option<&'a str> {
        self.field(&self.parts.signature)
    }

    /// The types of the body's values. Of a message without values some senders write an empty
    /// SIGNATURE, and others none: it is "" of both.
    #[must_use]
    pub fn types(&self) -> &'a str {
        self.signature().unwrap_or_default()
    }

    /// The number in the UNIX_FDS field, or 0 if there is none.
    #[must_use]
    pub fn unix_fds(&self) -> u32 {
        self.parts.unix_fds
    }

    /// The bytes of the body, which may be none.
    #[must_use]
    pub fn body_bytes(&self) -> &'a [u8] {
        &self.bytes[self.parts.body as usize..]
    }

    /// The values of the body. The call looks over the message once more, and takes memory for what
    /// they hold.
    #[must_use]
    pub fn body(&self) -> Values<'a> {
        Values::of_items(self.bytes, self.flatten(), self.signature().unwrap_or_default())
    }

    /// The header fields, each as its code and its value, in their order in the message: also those
    /// whose codes the specification does not name. The call looks over the message once more, and
    /// takes memory for what the fields hold.
    #[must_use]
    pub fn fields(&self) -> Fields<'a> {
        Fields::of_message(self.bytes)
    }

    /// Its parts, of which [`build`](crate::build) makes a message, and by which
    /// [`rebuild`](crate::rebuild) changes this one. They hold all but header fields of unknown
    /// codes.
    #[must_use]
    pub fn parts(&self) -> Parts<'a> {
        Parts {
            order: self.order(),
            kind: self.kind(),
            flags: self.flags().bits(),
            serial: self.serial(),
            path: self.path(),
            interface: self.interface(),
            member: self.member(),
            error_name: self.error_name(),
            reply_serial: self.reply_serial(),
            destination: self.destination(),
            sender: self.sender(),
            signature: self.signature(),
            unix_fds: self.unix_fds(),
            body: self.body_bytes(),
        }
    }

    /// All values of the body, and all that is within them, in one row: each container comes before
    /// its parts, and an array of numbers is one item. `include/dbus_wire.h` says what each member
    /// is.
    #[must_use]
    pub fn flatten(&self) -> Vec<FlatItem> {
        body_items(self.bytes)
    }

    /// A copy of the message in the byte order.
    #[must_use]
    pub fn in_order(&self, order: Order) -> Vec<u8> {
        let mut copy = vec![0; self.bytes.len()];
        byteswap(self.bytes, &Limits::default(), order, &mut copy)
            .expect("a message within limits is one within the specification's");
        copy
    }

    fn field(&self, text: &sys::dbus_wire_text) -> Option<&'a str> {
        // SAFETY: `dbus_wire_parts_of` writes the places of texts of the message, which are UTF-8,
        // and `parts` is as it wrote it.
        (text.is_there != 0).then(|| unsafe { text_at(self.bytes, text.offset, text.length) })
    }
}

impl fmt::Debug for Message<'_> {
    fn fmt(&self, f: &mut fmt::Formatter<'_>) -> fmt::Result {
        f.debug_struct("Message")
            .field("order", &self.order())
            .field("kind", &self.kind())
            .field("flags", &self.flags())
            .field("serial", &self.serial())
            .field("path", &self.path())
            .field("interface", &self.interface())
            .field("member", &self.member())
            .field("error_name", &self.error_name())
            .field("reply_serial", &self.reply_serial())
            .field("destination", &self.destination())
            .field("sender", &self.sender())
            .field("signature", &self.signature())
            .field("unix_fds", &self.unix_fds())
            .field("body", &self.body())
            .finish()
    }
}
