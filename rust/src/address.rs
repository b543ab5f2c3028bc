//! Server addresses.

use std::ffi::OsString;
use std::io;
use std::os::linux::net::SocketAddrExt;
use std::os::unix::ffi::OsStringExt;
use std::os::unix::net::{SocketAddr, UnixStream};
use std::path::PathBuf;

use crate::{sys, AddressFault};

/// A server address: a transport, and keys with their values.
#[derive(Clone, Copy, Debug)]
pub struct Address<'a> {
    // The text that it is in, which spells addresses, and its number there.
    text: &'a str,
    number: u64,
}

// Of a text of 4,096 bytes, the most that there are, no transport and no value has more than 4,095;
// a 0 comes after it.
const ROOM: usize = 4096;

impl Address<'_> {
    /// The transport, such as `unix`.
    #[must_use]
    pub fn transport(&self) -> String {
        let (mut out, mut count) = ([0; ROOM], 0);
        // SAFETY: slices and a reference, as `sys` says.
        let answer = unsafe {
            sys::dbus_wire_address_transport(
                self.text.as_ptr(),
                self.text.len(),
                self.number,
                out.as_mut_ptr(),
                ROOM,
                &raw mut count,
            )
        };
        assert_eq!(answer, sys::DBUS_WIRE_OK, "the text has the address");
        String::from_utf8(out[..count as usize].to_vec()).expect("a transport is ASCII")
    }

    /// The value of a key, unescaped, if the address has it: any bytes.
    #[must_use]
    pub fn value(&self, key: &str) -> Option<Vec<u8>> {
        let (mut out, mut count) = ([0; ROOM], 0);
        // SAFETY: slices and a reference, as `sys` says.
        let answer = unsafe {
            sys::dbus_wire_address_value(
                self.text.as_ptr(),
                self.text.len(),
                self.number,
                key.as_ptr(),
                key.len(),
                out.as_mut_ptr(),
                ROOM,
                &raw mut count,
            )
        };
        (answer == sys::DBUS_WIRE_OK).then(|| out[..count as usize].to_vec())
    }

    // The socket's address, if the address is of a Unix socket.
    fn socket(&self) -> io::Result<SocketAddr> {
        let wrong = |why| io::Error::new(io::ErrorKind::Unsupported, why);
        if self.transport() != "unix" {
            return Err(wrong("the transport is not unix"));
        }
        match (self.value("path"), self.value("abstract"), self.value("runtime")) {
            (Some(path), None, None) => SocketAddr::from_pathname(OsString::from_vec(path)),
            (None, Some(name), None) => SocketAddr::from_abstract_name(name),
            (None, None, Some(yes)) if yes == b"yes" => {
                let folder = std::env::var_os("XDG_RUNTIME_DIR").ok_or_else(|| wrong("there is no XDG_RUNTIME_DIR"))?;
                SocketAddr::from_pathname(PathBuf::from(folder).join("bus"))
            }
            _ => Err(wrong("a Unix socket has one of path, abstract and runtime=yes")),
        }
    }
}

/// The server addresses that a text spells, as that of `DBUS_SESSION_BUS_ADDRESS`: a client tries
/// them from the first on.
///
/// This is stricter than the specification: a text has at most 4,096 bytes and no empty address; a
/// transport and a key have a byte at least, and none that is escaped or would have to be; a key
/// comes once in an address; and the value of `guid` is 32 hexadecimal digits.
///
/// ```
/// use dbus_wire::parse_addresses;
///
/// let addresses = parse_addresses("unix:path=/run/my%20bus;tcp:host=localhost")?;
/// assert_eq!(addresses[0].value("path"), Some(b"/run/my bus".to_vec()));
/// assert_eq!((addresses[1].transport().as_str(), addresses[1].value("port")), ("tcp", None));
/// assert_eq!(parse_addresses("unix:path=/a;").unwrap_err().at, 13);
/// # Ok::<(), dbus_wire::AddressFault>(())
/// ```
///
/// # Errors
///
/// If the text spells none: where it breaks, and why.
pub fn parse_addresses(text: &str) -> Result<Vec<Address<'_>>, AddressFault> {
    let mut told = sys::dbus_wire_addresses::default();
    // SAFETY: a slice and a reference, as `sys` says.
    match unsafe { sys::dbus_wire_address_check(text.as_ptr(), text.len(), &raw mut told) } {
        sys::DBUS_WIRE_OK => Ok((0..told.count).map(|number| Address { text, number }).collect()),
        _ => Err(AddressFault::new(told.offset, told.reason, 0)),
    }
}

/// A socket that is connected to the first of the server addresses that takes a connection. Only
/// Unix sockets are supported, by one of `path`, `abstract` and `runtime=yes`, which is the socket
/// `bus` in the folder `XDG_RUNTIME_DIR`. The error is that of the last address, or that of the
/// text: an [`AddressFault`] of the kind [`InvalidInput`](io::ErrorKind::InvalidInput).
///
/// # Errors
///
/// If no address takes a connection, or if the text spells none.
pub fn connect(text: &str) -> io::Result<UnixStream> {
    let mut last = None;
    for address in parse_addresses(text).map_err(|fault| io::Error::new(io::ErrorKind::InvalidInput, fault))? {
        match address.socket().and_then(|socket| UnixStream::connect_addr(&socket)) {
            Ok(bus) => return Ok(bus),
            Err(error) => last = Some(error),
        }
    }
    Err(last.expect("a text has an address"))
}
