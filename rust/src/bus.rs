//! A connection to a message bus, over a Unix socket that blocks.

use std::collections::{BTreeMap, VecDeque};
use std::error::Error;
use std::io::{self, ErrorKind};
use std::os::fd::OwnedFd;
use std::os::unix::net::UnixStream;
use std::rc::Rc;
use std::{env, fmt, mem};

use crate::passing::{receive_with_fds, send_with_fds};
use crate::served::{serve_standard, Objects, Role, PROPERTIES};
use crate::{connect, BadValue, Bounds, Client, Connection, ConnectionError, End, Event, External, FromValue, Kind};
use crate::{Limits, Message, OwnedMessage, OwnedValue, Parts, ToValue, Typed};

pub(crate) const DBUS: &str = "org.freedesktop.DBus";
const PIECE: usize = 1 << 20;

/// The reply to a call is the error of this name. A method that returns it is answered by it.
#[derive(Clone, Debug, PartialEq, Eq)]
pub struct ErrorReply {
    /// Its name.
    pub name: String,
    /// Its text for people.
    pub text: String,
}

impl fmt::Display for ErrorReply {
    fn fmt(&self, f: &mut fmt::Formatter<'_>) -> fmt::Result {
        write!(f, "{}: {}", self.name, self.text)
    }
}

impl Error for ErrorReply {}

impl ErrorReply {
    fn of(error: Box<dyn Error>) -> Self {
        let kind = ["Failed", "InvalidArgs"][usize::from(error.is::<BadValue>())];
        let (name, text) = (format!("{DBUS}.Error.{kind}"), error.to_string());
        let own = error.downcast();
        own.map_or_else(|_| Self { name, text }, |it| *it)
    }
}

pub(crate) type Result<T> = std::result::Result<T, Box<dyn Error>>;

// A message, its descriptors, and whether it answers a call of this side.
type Incoming = (OwnedMessage, Vec<OwnedFd>, bool);

/// A connection to a message bus, and the objects that it serves.
///
/// ```no_run
/// use dbus_wire::Bus;
///
/// let mut bus = Bus::session()?;
/// bus.method("/org/example/Lab", "org.example.Lab", "Add", |_, (a, b): (u32, u32)| Ok(a.wrapping_add(b)));
/// bus.request_name("org.example.Lab")?;
/// bus.run()?;
/// # Ok::<(), Box<dyn std::error::Error>>(())
/// ```
///
/// Calls are answered in [`Bus::run`] and [`Bus::next_signal`] alone: one that comes while
/// [`Bus::call`] waits for its reply is answered later.
pub struct Bus {
    /// The file descriptors that came with the call that is answered, which are closed after its
    /// reply, or with the signal that came last. A [`UnixFd`](crate::UnixFd) is an index into them.
    pub asked_fds: Vec<OwnedFd>,
    /// Those that are sent with the reply to that call.
    pub given_fds: Vec<OwnedFd>,
    /// Those that came with the reply to the last call of this side.
    pub reply_fds: Vec<OwnedFd>,
    /// Those that are sent with the next call or signal of this side.
    pub sent_fds: Vec<OwnedFd>,
    pub(crate) objects: Objects,
    // Of the call that is answered.
    pub(crate) path: String,
    stream: UnixStream,
    connection: Connection,
    later: VecDeque<Incoming>,
}

impl Bus {
    /// The session bus: of `DBUS_SESSION_BUS_ADDRESS`, or else in `XDG_RUNTIME_DIR`.
    ///
    /// # Errors
    ///
    /// If no bus takes the connection.
    pub fn session() -> Result<Self> {
        let address = env::var("DBUS_SESSION_BUS_ADDRESS");
        Self::open(&address.unwrap_or_else(|_| "unix:runtime=yes".into()))
    }

    /// The system bus: of `DBUS_SYSTEM_BUS_ADDRESS`, or else of the specification.
    ///
    /// # Errors
    ///
    /// If no bus takes the connection.
    pub fn system() -> Result<Self> {
        let address = env::var("DBUS_SYSTEM_BUS_ADDRESS");
        Self::open(&address.unwrap_or_else(|_| "unix:path=/var/run/dbus/system_bus_socket".into()))
    }

    /// The bus at the first of these addresses that takes a connection.
    ///
    /// # Errors
    ///
    /// If none does.
    pub fn open(addresses: &str) -> Result<Self> {
        let mut client = Client::with_descriptors(Some(External::AsReported), None).map_err(io::Error::other)?;
        let (rejections, errors) = (6, 6);
        client.set_bounds(Bounds { rejections, errors });
        let mut bus = Self {
            asked_fds: vec![],
            given_fds: vec![],
            reply_fds: vec![],
            sent_fds: vec![],
            objects: Objects::default(),
            path: String::new(),
            stream: connect(addresses)?,
            connection: Connection::new(End::Client(client), &Limits::default(), u32::MAX, 128)?,
            later: VecDeque::new(),
        };
        serve_standard(&mut bus);
        // It returns as the handshake ends.
        bus.receive()?;
        bus.ask("Hello", ())?;
        Ok(bus)
    }

    /// Calls a method, and waits for its reply.
    ///
    /// # Errors
    ///
    /// If the reply is an error, there is no such message, or the bus is gone.
    pub fn call(&mut self, to: &str, path: &str, interface: &str, member: &str, values: impl ToValue) -> Result<OwnedMessage> {
        let serial = self.connection.call(Some(to), 1)?;
        let mut call = parts(Kind::MethodCall, serial, [path, interface, member]);
        call.destination = Some(to);
        if let Err(error) = self.send(call, values) {
            self.connection.give_up(serial);
            return Err(error);
        }
        let (reply, fds) = loop {
            match self.receive()?.ok_or(ConnectionError::Over)? {
                (reply, fds, true) => break (reply, fds),
                other => self.later.push_back(other),
            }
        };
        self.reply_fds = fds;
        let Some(name) = reply.error_name().map(str::to_owned) else { return Ok(reply) };
        let first = reply.body().next();
        let text = first.and_then(|it| Some(it.as_str()?.to_owned()));
        let text = text.unwrap_or_default();
        Err(ErrorReply { name, text }.into())
    }

    /// Calls a method of the bus itself, such as `AddMatch`.
    ///
    /// # Errors
    ///
    /// As of [`Bus::call`].
    pub fn ask(&mut self, member: &str, values: impl ToValue) -> Result<OwnedMessage> {
        self.call(DBUS, "/org/freedesktop/DBus", DBUS, member, values)
    }

    /// Asks the bus for a name.
    ///
    /// # Errors
    ///
    /// As of [`Bus::call`], and with `AddrInUse` if another connection has it.
    pub fn request_name(&mut self, name: &str) -> Result<()> {
        match self.ask("RequestName", (name, 4u32))?.body_as::<u32>()? {
            1 | 4 => Ok(()),
            _ => Err(io::Error::from(ErrorKind::AddrInUse).into()),
        }
    }

    /// Serves a method of an object, which also has `Peer`, `Introspectable` and `Properties`.
    pub fn method<A, R>(&mut self, path: &str, interface: &str, name: &str, call: impl Fn(&mut Bus, A) -> Result<R> + 'static)
    where
        A: for<'a> FromValue<'a> + Typed,
        R: ToValue,
    {
        let answer = Rc::new(move |bus: &mut Bus, asked: &Message<'_>, serial| {
            let values = call(bus, asked.body_as()?)?;
            let mut parts = Parts::new(Kind::MethodReturn, serial);
            parts.unix_fds = bus.given_fds.len() as u32;
            Ok(asked.answer(parts, values)?)
        });
        let types = [A::signature(), R::signature()];
        self.objects.serve([path, interface, name], types, Role::Method(answer));
    }

    /// Declares a signal of these types, for those who look at the object.
    pub fn signal<A: Typed>(&mut self, path: &str, interface: &str, name: &str) {
        self.objects.serve([path, interface, name], ["", A::signature()], Role::Signal);
    }

    /// Serves a property that callers read.
    pub fn property<T: ToValue>(&mut self, path: &str, interface: &str, name: &str, get: impl Fn() -> T + 'static) {
        let role = Role::Property(Box::new(move || Ok(OwnedValue::new(get())?)), None);
        self.objects.serve([path, interface, name], ["", T::signature()], role);
    }

    /// Serves a property that callers read and set.
    pub fn writable_property<T>(
        &mut self,
        path: &str,
        interface: &str,
        name: &str,
        get: impl Fn() -> T + 'static,
        set: impl Fn(T) -> Result<()> + 'static,
    ) where
        T: ToValue + for<'a> FromValue<'a>,
    {
        let set = Box::new(move |value: &OwnedValue| set(T::from_value(value.value())?));
        let role = Role::Property(Box::new(move || Ok(OwnedValue::new(get())?)), Some(set));
        self.objects.serve([path, interface, name], ["", T::signature()], role);
    }

    /// Sends a signal.
    ///
    /// # Errors
    ///
    /// If there is no such signal, or the bus is gone.
    pub fn emit(&mut self, path: &str, interface: &str, member: &str, values: impl ToValue) -> Result<()> {
        let serial = self.connection.serial();
        let signal = parts(Kind::Signal, serial, [path, interface, member]);
        self.send(signal, values)
    }

    // Sends a message of these parts, and `sent_fds`.
    fn send(&mut self, mut parts: Parts<'_>, values: impl ToValue) -> Result<()> {
        let fds = mem::take(&mut self.sent_fds);
        parts.unix_fds = fds.len() as u32;
        Ok(send_with_fds(&self.stream, &parts.build(values)?, &fds)?)
    }

    /// Sends `PropertiesChanged` of a property, with its value. One that a caller sets needs none.
    ///
    /// # Errors
    ///
    /// If there is no such property, or the bus is gone.
    pub fn changed(&mut self, path: &str, interface: &str, name: &str) -> Result<()> {
        let (get, _) = self.objects.property([path, interface, name])?;
        let values = (interface, BTreeMap::from([(name, get()?)]), [""; 0]);
        self.emit(path, PROPERTIES, "PropertiesChanged", values)
    }

    /// Answers calls until the bus is gone.
    ///
    /// # Errors
    ///
    /// If the bus sends what is no message, or takes none.
    pub fn run(&mut self) -> Result<()> {
        while self.next_signal()?.is_some() {}
        Ok(())
    }

    /// The next signal that comes; `None` once the bus is gone. Calls are answered meanwhile.
    ///
    /// # Errors
    ///
    /// As of [`Bus::run`].
    pub fn next_signal(&mut self) -> Result<Option<OwnedMessage>> {
        loop {
            let came = match self.later.pop_front() {
                Some(it) => Ok(Some(it)),
                None => self.receive(),
            };
            let (message, fds, _) = match came {
                Err(error) if error.is::<io::Error>() => return Ok(None),
                came => came?.ok_or(ConnectionError::Over)?,
            };
            self.asked_fds = fds;
            match message.kind() {
                Kind::MethodCall => self.answer(&message.message())?,
                Kind::Signal => return Ok(Some(message)),
                _ => {}
            }
        }
    }

    // The next message, or `None` as the handshake ends. No byte is read beyond either.
    fn receive(&mut self) -> Result<Option<Incoming>> {
        let mut bytes = Vec::new();
        loop {
            let came = self.connection.take(&bytes)?;
            match came.event {
                Event::Message { call, .. } => {
                    let fds = self.connection.fds();
                    return Ok(Some((OwnedMessage::known(bytes), fds, call.is_some())));
                }
                Event::Wants(count) => {
                    bytes.drain(..came.count);
                    while bytes.len() < count {
                        self.read(count, &mut bytes)?;
                    }
                }
                Event::Send(sent) => {
                    bytes.drain(..came.count);
                    send_with_fds(&self.stream, &sent, &[])?;
                }
                Event::Begun { send, .. } => {
                    send_with_fds(&self.stream, &send, &[])?;
                    return Ok(None);
                }
                _ => return Err(ConnectionError::Over.into()),
            }
        }
    }

    // Reads more bytes, until there are so many at most, and the descriptors beside them.
    fn read(&mut self, most: usize, bytes: &mut Vec<u8>) -> io::Result<()> {
        let (length, mut fds) = (bytes.len(), Vec::new());
        bytes.resize(most.min(length + PIECE), 0);
        let count = receive_with_fds(&self.stream, &mut bytes[length..], &mut fds)?;
        bytes.truncate(length + count);
        let mut kept = fds.into_iter().map(|fd| self.connection.keep_fd(fd, length));
        if count == 0 || !kept.all(|it| it) {
            return Err(ErrorKind::UnexpectedEof.into());
        }
        Ok(())
    }

    fn answer(&mut self, asked: &Message<'_>) -> Result<()> {
        let serial = self.connection.serial();
        asked.path().unwrap_or_default().clone_into(&mut self.path);
        let found = self.objects.method(asked);
        let answered = found.and_then(|answer| answer(self, asked, serial));
        let reply = answered.or_else(|error| {
            self.given_fds.clear();
            let error = ErrorReply::of(error);
            asked.reply_error(serial, &error.name, error.text)
        })?;
        let fds = mem::take(&mut self.given_fds);
        if asked.wants_reply() {
            send_with_fds(&self.stream, &reply, &fds)?;
        }
        self.asked_fds.clear();
        Ok(())
    }
}

fn parts(kind: Kind, serial: u32, at: [&str; 3]) -> Parts<'_> {
    let mut parts = Parts::new(kind, serial);
    [parts.path, parts.interface, parts.member] = at.map(Some);
    parts
}
