//! Objects that are served: their interfaces, and what a call of one gives.

use std::collections::{BTreeMap, BTreeSet};
use std::error::Error;
use std::fs;
use std::rc::Rc;

use crate::bus::{ErrorReply, Result, DBUS};
use crate::typed::types_in;
use crate::{Bus, Message, OwnedValue};

pub(crate) const PROPERTIES: &str = "org.freedesktop.DBus.Properties";
const PEER: &str = "org.freedesktop.DBus.Peer";
const INTROSPECTABLE: &str = "org.freedesktop.DBus.Introspectable";

type Answer = dyn Fn(&mut Bus, &Message<'_>, u32) -> Result<Vec<u8>>;
type Get = dyn Fn() -> Result<OwnedValue>;
type Set = dyn Fn(&OwnedValue) -> Result<()>;

/// What a member is: a method by what answers a call, a property by what reads and what sets it.
pub(crate) enum Role {
    Method(Rc<Answer>),
    Signal,
    Property(Box<Get>, Option<Box<Set>>),
}

/// A member: the types that it takes and gives, and its role.
pub(crate) struct Member([&'static str; 2], Role);

type As<'a, T> = fn(&'a Member) -> Option<T>;
type Members = BTreeMap<String, Member>;
type Changed = (String, BTreeMap<String, OwnedValue>, Vec<String>);

/// The members of each interface of each object, by its path. At the path "" are the standard ones,
/// which each object has.
#[derive(Default)]
pub(crate) struct Objects(BTreeMap<String, BTreeMap<String, Members>>);

/// Serves the members of D-Bus Specification, "Standard Interfaces".
pub(crate) fn serve_standard(bus: &mut Bus) {
    bus.method("", PEER, "Ping", |_, ()| Ok(()));
    bus.method("", PEER, "GetMachineId", |_, ()| Ok(fs::read_to_string("/etc/machine-id")?.trim_end().to_owned()));
    bus.method("", INTROSPECTABLE, "Introspect", |bus, ()| Ok(bus.objects.described(&bus.path)));
    bus.method("", PROPERTIES, "Get", |bus, it: (String, String)| bus.objects.property([&bus.path, &it.0, &it.1])?.0());
    bus.method("", PROPERTIES, "GetAll", |bus, interface: String| bus.objects.values(&bus.path, &interface));
    bus.method("", PROPERTIES, "Set", |bus, it: (String, String, OwnedValue)| {
        let path = bus.path.clone();
        let Some(set) = bus.objects.property([&path, &it.0, &it.1])?.1 else {
            return Err(error("PropertyReadOnly", format!("{} cannot be set", it.1)));
        };
        set(&it.2)?;
        bus.changed(&path, &it.0, &it.1)
    });
    bus.signal::<Changed>("", PROPERTIES, "PropertiesChanged");
}

impl Objects {
    pub(crate) fn serve(&mut self, at: [&str; 3], types: [&'static str; 2], role: Role) {
        let [path, interface, name] = at.map(str::to_owned);
        let members = self.0.entry(path).or_default().entry(interface);
        members.or_default().insert(name, Member(types.map(types_in), role));
    }

    // The interfaces of an object: its own come first.
    fn interfaces(&self, path: &str) -> impl Iterator<Item = (&String, &Members)> {
        self.0.get(path).into_iter().chain(self.0.get("")).flatten()
    }

    // The members of an interface, or of all if it is "".
    fn tables(&self, path: &str, interface: &str) -> Result<Vec<&Members>> {
        let is_asked = |it: &(&String, _)| interface.is_empty() || it.0 == interface;
        let found = self.interfaces(path).filter(is_asked);
        let found: Vec<_> = found.map(|it| it.1).collect();
        if found.is_empty() {
            return Err(error("UnknownInterface", format!("no {interface}")));
        }
        Ok(found)
    }

    // What `of` makes of a member of this name; the error has the other name.
    fn find<'a, T>(&'a self, at: [&str; 3], of: As<'a, T>, none: &str) -> Result<T> {
        let [path, interface, name] = at;
        let mut tables = self.tables(path, interface)?.into_iter();
        let found = tables.find_map(|it| it.get(name).and_then(of));
        found.ok_or_else(|| error(none, format!("{path} has no {name} of that kind")))
    }

    /// What answers a call.
    pub(crate) fn method(&self, call: &Message<'_>) -> Result<Rc<Answer>> {
        let at = [call.path(), call.interface(), call.member()].map(Option::unwrap_or_default);
        let is_there = self.0.contains_key(at[0]) || !self.below(at[0]).is_empty() || at[0] == "/";
        if !is_there && at[1] != PEER {
            return Err(error("UnknownObject", format!("no {}", at[0])));
        }
        let (takes, answer) = self.find(at, Member::method, "UnknownMethod")?;
        if takes != call.types() {
            return Err(error("InvalidArgs", format!("it takes '{takes}'")));
        }
        Ok(answer.clone())
    }

    /// What reads a property, and what sets it.
    pub(crate) fn property(&self, at: [&str; 3]) -> Result<(&Get, Option<&Set>)> {
        self.find(at, Member::property, "UnknownProperty")
    }

    fn values(&self, path: &str, interface: &str) -> Result<BTreeMap<String, OwnedValue>> {
        let all = self.tables(path, interface)?.into_iter().flatten();
        let properties = all.filter_map(|(name, it)| Some((name.clone(), it.property()?.0)));
        properties.map(|(name, get)| Ok((name, get()?))).collect()
    }

    // The names right below a path.
    fn below<'a>(&'a self, path: &str) -> BTreeSet<&'a str> {
        let front = path.trim_end_matches('/');
        let behind = |it: &'a String| it.strip_prefix(front)?.strip_prefix('/')?.split('/').next();
        let names = self.0.keys().filter_map(behind);
        names.filter(|it| !it.is_empty()).collect()
    }

    // What Introspect returns.
    fn described(&self, path: &str) -> String {
        let mut text = String::from("<node>");
        for (interface, members) in self.interfaces(path) {
            text += &format!("<interface name='{interface}'>");
            text.extend(members.iter().map(|(name, it)| it.described(name)));
            text += "</interface>";
        }
        let below = self.below(path).into_iter();
        text.extend(below.map(|name| format!("<node name='{name}'/>")));
        text + "</node>"
    }
}

impl Member {
    fn method(&self) -> Option<(&str, &Rc<Answer>)> {
        match &self.1 {
            Role::Method(answer) => Some((self.0[0], answer)),
            _ => None,
        }
    }

    fn property(&self) -> Option<(&Get, Option<&Set>)> {
        match &self.1 {
            Role::Property(get, set) => Some((get, set.as_deref())),
            _ => None,
        }
    }

    fn described(&self, name: &str) -> String {
        let [takes, gives] = self.0;
        let args = args(takes, "in") + &args(gives, "out");
        match &self.1 {
            Role::Method(_) => format!("<method name='{name}'>{args}</method>"),
            Role::Signal => format!("<signal name='{name}'>{args}</signal>"),
            Role::Property(_, set) => {
                let access = if set.is_some() { "readwrite" } else { "read" };
                format!("<property name='{name}' type='{gives}' access='{access}'/>")
            }
        }
    }
}

fn error(name: &str, text: String) -> Box<dyn Error> {
    let name = format!("{DBUS}.Error.{name}");
    ErrorReply { name, text }.into()
}

fn args(types: &str, side: &str) -> String {
    let mut depth = 0;
    let ends = |code| {
        depth += i32::from(matches!(code, '(' | '{')) - i32::from(matches!(code, ')' | '}'));
        depth == 0 && code != 'a'
    };
    let arg = |it| format!("<arg type='{it}' direction='{side}'/>");
    types.split_inclusive(ends).map(arg).collect()
}
