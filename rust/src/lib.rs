//! Checks, takes apart, builds, byteswaps and matches D-Bus messages, checks texts, and is both
//! ends of the authentication handshake, as the [D-Bus Specification] says. The calls are those of
//! a C library, `libdbus_wire`, whose results are proved for all bytes and all limits; this crate
//! makes them safe. What is in this crate itself is tested, and not proved.
//!
//! ```
//! use dbus_wire::{Message, Value};
//!
//! # let signal = b"l\x04\0\x01\x07\0\0\0\x01\0\0\0\x37\0\0\0\x01\x01o\0\x01\0\0\0/\0\0\0\0\0\0\0\x02\x01s\0\x03\0\0\0a.b\0\0\0\0\0\x03\x01s\0\x01\0\0\0c\0\0\0\0\0\0\0\x08\x01g\0\x01s\0\0\x02\0\0\0hi\0";
//! let message = Message::parse(signal)?;
//! assert_eq!(message.member(), Some("c"));
//! for value in message.body() {
//!     match value {
//!         Value::String(text) => assert_eq!(text, "hi"),
//!         other => println!("{other:?}"),
//!     }
//! }
//! # Ok::<(), dbus_wire::ParseError>(())
//! ```
//!
//! * [`check`] says whether bytes begin with a message; [`Checker`] says it of bytes that come in
//!   pieces; [`wanted`] says how long a message is by its first 16 bytes.
//! * [`Message`] has the parts of a message, and allocates nothing. [`Values`] goes over the values
//!   of its body, and [`Fields`] over its header fields; [`Message::flatten`] gives all values as
//!   one row. They borrow the bytes, so no text is copied.
//! * [`Message::body_as`] reads a body as types of Rust, such as `(String, u32)`; [`Typed`] says
//!   which these are. [`Message::reply`] and [`Parts::build`] make messages of values of such types,
//!   and [`messages`] reads those of a file or a socket.
//! * [`build`] makes a message of its [`Parts`], whose body is that of [`spell`], or a [`Body`] that
//!   is spelled value by value; [`rebuild`] changes one, and keeps its header fields in their places;
//!   [`reply_to`] replies.
//! * [`Message::to_json`] writes a message as `dbus-wire json` does, and [`Message::from_json`] reads
//!   such a line back.
//! * [`byteswap`] writes a message in the other byte order, and [`check_text`] checks names,
//!   signatures and other texts.
//! * A match [`Rule`], or a [`RuleSet`] of many, says which messages a program wants, and keeps who
//!   owns the names that they ask for. Threads may ask one at the same time.
//! * [`Server`] and [`Client`] are the ends of the authentication handshake, and [`client_line`]
//!   and [`server_line`] give the lines of one between others, which a [`Watch`] passes on. A
//!   [`Connection`] is the handshake, the messages after it, and the calls that wait.
//! * [`parse_addresses`] reads server addresses, and [`connect`] connects to a bus by them.
//! * [`Limits`] are those that a message has to keep, and a [`Fault`] says where and why bytes are
//!   no message; [`explain`] says it for a reader, with the name of the place and the rule,
//!   and [`whole_parts`] gives the header fields and the values of the body before the fault.
//! * [`sys`] has the C calls themselves.
//!
//! # Linking
//!
//! The crate links `-ldbus_wire`, which `pkg-config dbus-wire` finds, or which is in the folder
//! that the environment variable `DBUS_WIRE_LIB_DIR` of `cargo build` names. The library runs on
//! Linux, on x86-64 processors of level v2. The crate needs no other, and is tried with rustc 1.95.
//!
//! # Stack
//!
//! A call needs at most 98,304 bytes of stack, or [`Message::from_json`] 262,144, which is less than
//! a thread has unless it is given less.
//!
//! [D-Bus Specification]: https://dbus.freedesktop.org/doc/dbus-specification.html

mod address;
mod bad_value;
mod body;
mod build;
mod bus;
mod check;
mod checker;
mod connection;
mod explain;
mod fault;
mod handshake;
mod json;
mod limits;
mod line;
mod message;
mod messages;
mod owned_value;
mod passing;
mod rule;
mod served;
mod swap;
pub mod sys;
mod text;
mod typed;
mod value;
mod watch;

pub use address::{connect, parse_addresses, Address};
pub use bad_value::BadValue;
pub use body::{Body, TooLong};
pub use build::{build, rebuild, reply_to, BuildError, BuildFault, Parts};
pub use bus::{Bus, ErrorReply};
pub use check::{check, wanted, Answer, Order};
pub use checker::{Checker, OutOfMemory, Taken};
pub use connection::{Came, Connection, ConnectionError, End, Event};
pub use explain::{explain, whole_parts, Explanation, InputPlace, StatedText};
pub use fault::{AddressFault, AddressReason, Fault, ParseError, Reason, RuleFault, RuleReason};
pub use handshake::{Bounds, Client, External, HandshakeError, Server, Status, Step};
pub use json::LinePlace;
pub use limits::{Descriptors, Limits};
pub use line::{client_line, server_line, Command, Line, LineFault};
pub use message::{Flags, Kind, Message, OwnedMessage};
pub use messages::{messages, Messages, ReadError};
pub use owned_value::OwnedValue;
pub use passing::{receive_with_fds, send_with_fds};
pub use rule::{OwnerError, Rule, RuleError, RuleId, RuleSet};
pub use swap::{byteswap, SwapError};
pub use sys::dbus_wire_flat_item as FlatItem;
pub use text::{check_text, TextFault, TextKind};
#[doc(hidden)]
pub use typed::typed_structs;
pub use typed::{
    spell, AnyVariant, FromValue, MakeError, ObjectPath, Signature, Spelled, ToValue, TypeText, Typed, UnixFd, VariantOf,
};
pub use value::{Array, Entry, Fields, Value, Values, Variant, WholeParts};
pub use watch::{NotPassed, Passage, Watch};

/// The version of the library that is linked or loaded: its three numbers.
///
/// ```
/// assert_eq!(dbus_wire::version().0, 0);
/// ```
#[must_use]
pub fn version() -> (u32, u32, u32) {
    // SAFETY: the call takes nothing.
    let version = unsafe { sys::dbus_wire_version() };
    (version >> 16, version >> 8 & 0xFF, version & 0xFF)
}
