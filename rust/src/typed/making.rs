//! Messages whose bodies are made of values of Rust.

use std::error::Error;
use std::fmt;

use super::{spell, ToValue};
use crate::{build, reply_to, BadValue, BuildError, Kind, Limits, Message, Parts};

/// Why no message is made of values.
#[derive(Clone, Debug, PartialEq, Eq)]
#[non_exhaustive]
pub enum MakeError {
    /// A value is none of its type.
    BadValue(BadValue),
    /// No message has these parts, or there is no memory for it.
    Build(BuildError),
}

impl fmt::Display for MakeError {
    fn fmt(&self, f: &mut fmt::Formatter<'_>) -> fmt::Result {
        match self {
            MakeError::BadValue(bad) => bad.fmt(f),
            MakeError::Build(error) => error.fmt(f),
        }
    }
}

impl Error for MakeError {}

impl From<BadValue> for MakeError {
    fn from(bad: BadValue) -> Self {
        MakeError::BadValue(bad)
    }
}

impl From<BuildError> for MakeError {
    fn from(error: BuildError) -> Self {
        MakeError::Build(error)
    }
}

impl Parts<'_> {
    /// The bytes of the message of these parts, within the specification's limits, but with these
    /// values as its body, and their types as its signature, as [`spell`] takes them. [`build`]
    /// takes a body that is spelled, and other limits.
    ///
    /// ```
    /// use dbus_wire::{Kind, Message, Parts};
    ///
    /// let signal = Parts { path: Some("/"), interface: Some("a.b"), member: Some("C"), ..Parts::new(Kind::Signal, 1) };
    /// let bytes = signal.build(("x", 1u32))?;
    /// assert_eq!(Message::parse(&bytes)?.signature(), Some("su"));
    /// # Ok::<(), Box<dyn std::error::Error>>(())
    /// ```
    ///
    /// # Errors
    ///
    /// If a value is none of its type, if no message has these parts, or if memory runs out.
    pub fn build(&self, values: impl ToValue) -> Result<Vec<u8>, MakeError> {
        let body = spell(self.order, values)?;
        Ok(build(&Parts { signature: body.signature(), body: body.bytes(), ..*self }, &Limits::default())?)
    }
}

impl Message<'_> {
    /// Whether it is a call that does not say that it expects no reply.
    #[must_use]
    pub fn wants_reply(&self) -> bool {
        self.kind() == Kind::MethodCall && !self.flags().no_reply_expected()
    }

    /// The bytes of the reply to this call, with this serial and these values, as [`spell`] takes
    /// them. [`reply_to`] takes further parts, and other limits.
    ///
    /// ```
    /// use std::collections::HashMap;
    ///
    /// use dbus_wire::{Kind, Message, Parts, Value};
    ///
    /// # let get = Parts { path: Some("/"), member: Some("Get"), sender: Some(":1.7"), ..Parts::new(Kind::MethodCall, 5) };
    /// # let get = get.build(())?;
    /// # let call = Message::parse(&get)?;
    /// let bytes = call.reply(1, HashMap::from([("Volume", Value::from(0.5))]))?;
    /// let reply = Message::parse(&bytes)?;
    /// assert_eq!((reply.signature(), reply.destination()), (Some("a{sv}"), call.sender()));
    /// # Ok::<(), Box<dyn std::error::Error>>(())
    /// ```
    ///
    /// # Errors
    ///
    /// As of [`Parts::build`], and if this is no call.
    pub fn reply(&self, serial: u32, values: impl ToValue) -> Result<Vec<u8>, MakeError> {
        self.answer(Parts::new(Kind::MethodReturn, serial), values)
    }

    /// The same, if the call failed: the reply is the error of this name. Its first value is to be
    /// a text for people, if it has any.
    ///
    /// ```
    /// # use dbus_wire::{Kind, Message, Parts};
    /// # let get = Parts { path: Some("/"), member: Some("Get"), ..Parts::new(Kind::MethodCall, 5) };
    /// # let get = get.build(())?;
    /// # let call = Message::parse(&get)?;
    /// let bytes = call.reply_error(1, "org.freedesktop.DBus.Error.UnknownMethod", "there is no Get")?;
    /// assert_eq!(Message::parse(&bytes)?.kind(), Kind::Error);
    /// # Ok::<(), Box<dyn std::error::Error>>(())
    /// ```
    ///
    /// # Errors
    ///
    /// As of [`Message::reply`], and if the name is no error name.
    pub fn reply_error(&self, serial: u32, name: &str, values: impl ToValue) -> Result<Vec<u8>, MakeError> {
        self.answer(Parts { error_name: Some(name), ..Parts::new(Kind::Error, serial) }, values)
    }

    pub(crate) fn answer(&self, parts: Parts<'_>, values: impl ToValue) -> Result<Vec<u8>, MakeError> {
        let body = spell(self.order(), values)?;
        Ok(reply_to(self, &Parts { signature: body.signature(), body: body.bytes(), ..parts }, &Limits::default())?)
    }
}
