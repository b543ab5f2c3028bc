//! A message that owns its bytes.

use std::fmt;
use std::num::NonZeroU32;

use super::{Flags, Kind, Message};
use crate::{
    sys, BadValue, Fields, FlatItem, FromValue, Limits, LinePlace, MakeError, Order, ParseError, Parts, ToValue, Values,
};

/// A message that is known to be valid, and owns its bytes. [`messages`](crate::messages) reads
/// such ones.
#[derive(Clone)]
pub struct OwnedMessage {
    // Those of the message alone.
    bytes: Vec<u8>,
    parts: sys::dbus_wire_parts,
}

impl OwnedMessage {
    /// The message within the limits that the bytes begin with. Bytes after it are left out.
    ///
    /// # Errors
    ///
    /// As of [`Message::parse_within`].
    pub fn parse_within(mut bytes: Vec<u8>, limits: &Limits) -> Result<Self, ParseError> {
        let message = Message::parse_within(&bytes, limits)?;
        let (length, parts) = (message.bytes.len(), message.parts);
        bytes.truncate(length);
        Ok(Self { bytes, parts })
    }

    /// That of bytes which the library wrote.
    pub(crate) fn known(bytes: Vec<u8>) -> Self {
        Self::parse_within(bytes, &Limits::default()).expect("a message is written")
    }

    /// The message. The call takes no look over the bytes.
    #[must_use]
    pub fn message(&self) -> Message<'_> {
        Message { bytes: &self.bytes, parts: self.parts }
    }

    /// Its bytes.
    #[must_use]
    pub fn into_bytes(self) -> Vec<u8> {
        self.bytes
    }
}

// The calls of a message, each as of `OwnedMessage::message`.
macro_rules! calls {
    ($($call:ident($($name:ident: $type:ty),*) -> $given:ty;)*) => {
        impl OwnedMessage {$(
            #[doc = concat!("As [`Message::", stringify!($call), "`].")]
            #[allow(clippy::missing_errors_doc, clippy::must_use_candidate)]
            pub fn $call(&self $(, $name: $type)*) -> $given {
                self.message().$call($($name),*)
            }
        )*}
    };
}

calls! {
    bytes() -> &[u8];
    order() -> Order;
    kind() -> Kind;
    flags() -> Flags;
    serial() -> u32;
    path() -> Option<&str>;
    interface() -> Option<&str>;
    member() -> Option<&str>;
    error_name() -> Option<&str>;
    reply_serial() -> Option<NonZeroU32>;
    destination() -> Option<&str>;
    sender() -> Option<&str>;
    signature() -> Option<&str>;
    types() -> &str;
    unix_fds() -> u32;
    body_bytes() -> &[u8];
    body() -> Values<'_>;
    fields() -> Fields<'_>;
    parts() -> Parts<'_>;
    flatten() -> Vec<FlatItem>;
    in_order(order: Order) -> Vec<u8>;
    to_json(place: LinePlace) -> String;
    wants_reply() -> bool;
    reply(serial: u32, values: impl ToValue) -> Result<Vec<u8>, MakeError>;
    reply_error(serial: u32, name: &str, values: impl ToValue) -> Result<Vec<u8>, MakeError>;
}

impl OwnedMessage {
    /// As [`Message::body_as`].
    ///
    /// # Errors
    ///
    /// As of [`Message::body_as`].
    pub fn body_as<'a, T: FromValue<'a>>(&'a self) -> Result<T, BadValue> {
        self.message().body_as()
    }
}

impl From<Message<'_>> for OwnedMessage {
    fn from(message: Message<'_>) -> Self {
        Self { bytes: message.bytes.to_vec(), parts: message.parts }
    }
}

impl fmt::Debug for OwnedMessage {
    fn fmt(&self, f: &mut fmt::Formatter<'_>) -> fmt::Result {
        self.message().fmt(f)
    }
}
