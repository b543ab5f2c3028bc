//! Values of Rust as bodies, and bodies as values of Rust.

use std::collections::{BTreeMap, HashMap};
use std::fmt::Debug;
use std::io::{self, Read};
use std::os::unix::net::UnixStream;
use std::thread;

use dbus_wire::{
    dictionary, messages, reply_to, spell, structure, AnyVariant, BuildError, Client, External, Fault, FromValue, Kind, Limits,
    MakeError, Message, ObjectPath, Order, OwnedMessage, OwnedValue, Parts, ReadError, Reason, Server, Signature, ToValue, Typed,
    UnixFd, Value, Variant, VariantOf,
};

const CAPTURES: [&[u8]; 2] = [include_bytes!("data/session.dbus"), include_bytes!("data/big-endian.dbus")];
const SIGNAL: (Option<&str>, Option<&str>, Option<&str>) = (Some("/a"), Some("b.c"), Some("D"));

fn signal(order: Order) -> Parts<'static> {
    let (path, interface, member) = SIGNAL;
    Parts { order, path, interface, member, ..Parts::new(Kind::Signal, 7) }
}

// Numbers that look random, by xorshift.
struct Numbers(u64);

impl Numbers {
    fn next(&mut self) -> u64 {
        self.0 ^= self.0 << 13;
        self.0 ^= self.0 >> 7;
        self.0 ^= self.0 << 17;
        self.0
    }

    fn below(&mut self, bound: u64) -> u64 {
        self.next() % bound
    }

    fn one_of<T: Copy>(&mut self, list: &[T]) -> T {
        list[self.below(list.len() as u64) as usize]
    }
}

trait Random: Sized {
    fn random(numbers: &mut Numbers) -> Self;

    fn several(numbers: &mut Numbers) -> Vec<Self> {
        (0..numbers.below(4)).map(|_| Self::random(numbers)).collect()
    }
}

// The least, the greatest, or any.
macro_rules! random_integers {
    ($($name:ident)*) => {$(
        impl Random for $name {
            fn random(numbers: &mut Numbers) -> Self {
                let any = numbers.next() as $name;
                numbers.one_of(&[$name::MIN, $name::MAX, any, any])
            }
        }
    )*};
}

random_integers! { u8 i16 u16 i32 u32 i64 u64 }

macro_rules! random_choices {
    ($($name:ty: $choices:expr;)*) => {$(
        impl Random for $name {
            fn random(numbers: &mut Numbers) -> Self {
                numbers.one_of(&$choices).into()
            }
        }
    )*};
}

random_choices! {
    bool: [true, false];
    f64: [0.0, -0.0, 1.5, 5e-324, f64::INFINITY, -9_007_199_254_740_993.0];
    String: ["", "a", "größer", "say \"x\"", "\n{}", "\u{1f600}"];
}

macro_rules! random_tuples {
    ($(($($name:ident)+))*) => {$(
        impl<$($name: Random),+> Random for ($($name,)+) {
            fn random(numbers: &mut Numbers) -> Self {
                ($($name::random(numbers),)+)
            }
        }
    )*};
}

random_tuples! { (A) (A B) (A B C) (A B C D) (A B C D E) (A B C D E F) (A B C D E F G H I J K L) }

impl Random for UnixFd {
    fn random(numbers: &mut Numbers) -> Self {
        Self(u32::random(numbers))
    }
}

impl Random for ObjectPath<String> {
    fn random(numbers: &mut Numbers) -> Self {
        Self(numbers.one_of(&["/", "/a", "/a/b_1"]).into())
    }
}

impl Random for Signature<String> {
    fn random(numbers: &mut Numbers) -> Self {
        Self(numbers.one_of(&["", "s", "a{sv}", "(ii)ay"]).into())
    }
}

impl<T: Random> Random for VariantOf<T> {
    fn random(numbers: &mut Numbers) -> Self {
        Self(T::random(numbers))
    }
}

impl<T: Random> Random for Vec<T> {
    fn random(numbers: &mut Numbers) -> Self {
        T::several(numbers)
    }
}

impl<K: Random + Ord, V: Random> Random for BTreeMap<K, V> {
    fn random(numbers: &mut Numbers) -> Self {
        <(K, V)>::several(numbers).into_iter().collect()
    }
}

// Random values of the type come back from messages of either order, and their types are these.
fn comes_back<T>(types: &str, numbers: &mut Numbers)
where
    T: Random + ToValue + for<'a> FromValue<'a> + PartialEq + Debug,
{
    for order in [Order::Little, Order::Big].repeat(50) {
        let value = T::random(numbers);
        let bytes = signal(order).build(&value).unwrap();
        let message = Message::parse(&bytes).unwrap();
        assert_eq!((message.signature().unwrap_or_default(), message.order()), (types, order));
        assert_eq!(message.body_as::<T>().as_ref(), Ok(&value));
        assert_eq!(message.body_as::<Option<T>>(), Ok(Some(value)));
        // Each value by itself holds the same: as it is in the body, it is put into a variant.
        for value in message.body() {
            let bytes = signal(order).build((&value, &value)).unwrap();
            let held = Message::parse(&bytes).unwrap();
            assert_eq!(held.body_as::<(Value, Value)>(), Ok((value.clone(), value)));
        }
    }
}

macro_rules! come_back {
    ($($types:literal $name:ty;)*) => {{
        let mut numbers = Numbers(0x9e37_79b9_7f4a_7c15);
        $(comes_back::<$name>($types, &mut numbers);)*
    }};
}

#[test]
fn values_of_a_type_come_back() {
    come_back! {
        "y" u8;
        "b" bool;
        "n" i16;
        "q" u16;
        "i" i32;
        "u" u32;
        "x" i64;
        "t" u64;
        "d" f64;
        "h" UnixFd;
        "s" String;
        "o" ObjectPath<String>;
        "g" Signature<String>;
        "ybnqiuxtdhso" (u8, bool, i16, u16, i32, u32, i64, u64, f64, UnixFd, String, ObjectPath<String>);
        "ay" Vec<u8>;
        "ab" Vec<bool>;
        "yaq" (u8, Vec<u16>);
        "yax" (u8, Vec<i64>);
        "as" Vec<String>;
        "aas" Vec<Vec<String>>;
        "yaad" (u8, Vec<Vec<f64>>);
        "(su)" ((String, u32),);
        "((s)y(ib))" (((String,), u8, (i32, bool)),);
        "sa(ys)" (String, Vec<(u8, String)>);
        "a{su}" BTreeMap<String, u32>;
        "ya{yx}" (u8, BTreeMap<u8, i64>);
        "a{oa{sv}}" BTreeMap<ObjectPath<String>, BTreeMap<String, VariantOf<Vec<u8>>>>;
        "a{n(sb)}" BTreeMap<i16, (String, bool)>;
        "v" VariantOf<u64>;
        "yvy" (u8, VariantOf<(String, f64)>, u8);
        "gvv" (Signature<String>, VariantOf<VariantOf<bool>>, VariantOf<BTreeMap<String, u8>>);
        "av" Vec<VariantOf<String>>;
        "sa{sv}as" (String, BTreeMap<String, VariantOf<f64>>, Vec<String>);
    }
}

#[test]
fn a_body_is_borrowed_or_is_nothing() {
    let bytes = signal(Order::Little).build(("hi", [1u8, 2], ObjectPath("/a"), HashMap::from([("k", 7i16)]))).unwrap();
    let message = Message::parse(&bytes).unwrap();
    let (text, array, path, map) = message.body_as::<(&str, &[u8], ObjectPath<&str>, HashMap<String, i16>)>().unwrap();
    assert_eq!((text, array, path, map["k"]), ("hi", &[1, 2][..], ObjectPath("/a"), 7));
    assert!(bytes.as_ptr_range().contains(&text.as_ptr()) && bytes.as_ptr_range().contains(&array.as_ptr()));

    let bytes = signal(Order::Little).build(()).unwrap();
    let message = Message::parse(&bytes).unwrap();
    assert_eq!((message.signature(), message.body_as::<()>()), (None, Ok(())));
    assert_eq!(message.body_as::<Option<(String, u32)>>(), Ok(None));
    assert_eq!(message.body_as::<Option<Vec<u8>>>(), Ok(None));
}

#[test]
fn values_are_tried() {
    assert_eq!(u32::try_from(Value::Uint32(7)), Ok(7));
    assert_eq!(<&str>::try_from(Value::from("a")), Ok("a"));
    assert_eq!(UnixFd::try_from(Value::UnixFd(3)), Ok(UnixFd(3)));
    assert_eq!(ObjectPath::<String>::try_from(Value::from(ObjectPath("/"))), Ok(ObjectPath("/".to_owned())));
    let bytes = signal(Order::Big).build(((1u8, "a"), ["b"], HashMap::from([(1u16, 2.5)]), VariantOf(3i16))).unwrap();
    let values: Vec<Value> = Message::parse(&bytes).unwrap().body().collect();
    assert_eq!(values.iter().map(Value::signature).collect::<String>(), "(ys)asa{qd}v");
    let [tuple, array, map, held] = &values[..] else { panic!() };
    assert_eq!(tuple.clone().try_into(), Ok((1u8, "a")));
    assert_eq!(array.clone().try_into(), Ok(vec!["b"]));
    assert_eq!(map.clone().try_into(), Ok(HashMap::from([(1u16, 2.5)])));
    assert_eq!(map.clone().try_into(), Ok(BTreeMap::from([(1u16, 2.5)])));
    assert_eq!(held.clone().try_into(), Ok(VariantOf(3i16)));
    assert_eq!(Variant::try_from(held.clone()).unwrap().value(), Value::Int16(3));
    assert_eq!(Variant::try_from(Value::Byte(1)).unwrap_err().to_string(), "value: wanted v, given y");
    assert_eq!(Vec::<u8>::try_from(array.clone()).unwrap_err().to_string(), "value: wanted ay, given as");
}

#[test]
fn bodies_of_other_types_are_refused() {
    let bytes = signal(Order::Little).build(("a", [HashMap::from([("k", VariantOf(7u32))])], (1u8, 2u8))).unwrap();
    macro_rules! rows {
        ($bytes:ident $($name:ty: $text:literal;)*) => {{
            let message = Message::parse(&$bytes).unwrap();
            $(assert_eq!(message.body_as::<$name>().unwrap_err().to_string(), $text);)*
        }};
    }
    type Given = HashMap<String, VariantOf<u32>>;
    rows! {
        bytes
        (): "body: wanted no value, given saa{sv}(yy)";
        String: "body: wanted s, given saa{sv}(yy)";
        (u32, Vec<Given>, (u8, u8)): "body[0]: wanted u, given s";
        (String, Vec<HashMap<String, u32>>, (u8, u8)): "body[1]: wanted aa{su}, given aa{sv}";
        (String, Given, (u8, u8)): "body[1]: wanted a{sv}, given aa{sv}";
        (String, Vec<Given>, (u8, bool)): "body[2]: wanted (yb), given (yy)";
        (String, Vec<Given>): "body: wanted saa{sv}, given saa{sv}(yy)";
        (String, Vec<Given>, u8, u8): "body[2]: wanted y, given (yy)";
        (String, Vec<Given>, (u8, u8), u8): "body: wanted saa{sv}(yy)y, given saa{sv}(yy)";
        ((String, Vec<Given>, (u8, u8)),): "body[0]: wanted (saa{sv}(yy)), given s";
        Option<u8>: "body[0]: wanted y, given s";
        (String, Vec<HashMap<String, VariantOf<f64>>>, (u8, u8)): "body[1][0][\"k\"].value: wanted d, given u";
    }
    let bytes = signal(Order::Little).build(()).unwrap();
    rows! {
        bytes
        u8: "body: wanted y, given no value";
        (u8, u8): "body: wanted yy, given no value";
    }
}

fn refusal(values: impl ToValue) -> String {
    spell(Order::Little, values).unwrap_err().to_string()
}

#[test]
fn values_of_no_type_are_refused() {
    macro_rules! rows {
        ($($values:expr, $text:literal;)*) => {$(assert_eq!(refusal($values), $text);)*};
    }
    let deep = HashMap::from([(7u8, AnyVariant::new((1u32, ["a", "b\0"])))]);
    rows! {
        "a\0", r#"body[0]: wanted a STRING, UTF-8 without U+0000, given "a\0": the text is not valid, at byte 1"#;
        (1u8, ObjectPath("a")), r#"body[1]: wanted an OBJECT_PATH, given "a": the text is not valid, at byte 0"#;
        (Signature("a"),), r#"body[0]: wanted a SIGNATURE, given "a": the text is not valid, at byte 1"#;
        ("", deep), r#"body[1][7].value[1][1]: wanted a STRING, UTF-8 without U+0000, given "b\0": the text is not valid, at byte 1"#;
        BTreeMap::from([("", 1u8), ("\0", 2)]), r#"body[0].keys[1]: wanted a STRING, UTF-8 without U+0000, given "\0": the text is not valid, at byte 0"#;
        BTreeMap::from([("it's", ObjectPath(""))]), r#"body[0]["it's"]: wanted an OBJECT_PATH, given "": the text is not valid, at byte 0"#;
        BTreeMap::from([(vec![1u8], 1u8)]), r#"signature: wanted a SIGNATURE, given "a{ayy}": the text is not valid, at byte 2"#;
        [AnyVariant::new(())], r#"body[0][0].signature: wanted a SIGNATURE of one complete type, given "()": the text is not valid, at byte 1"#;
        ((),), r#"signature: wanted a SIGNATURE, given "()": the text is not valid, at byte 1"#;
    }
    let long = "a".repeat(300);
    assert!(refusal(Signature(&long)).ends_with(": the text has more than 255 bytes"));
    assert!(matches!(signal(Order::Little).build("\0"), Err(MakeError::BadValue(bad)) if bad.path == "body[0]"));
    let Err(MakeError::Build(BuildError::Refused(fault))) = Parts::new(Kind::MethodCall, 1).build("a") else { panic!() };
    assert_eq!(fault.reason, Reason::FieldMissing(1));
}

#[test]
fn a_value_of_a_message_is_put_as_it_is() {
    for order in [Order::Little, Order::Big] {
        for message in CAPTURES.into_iter().flat_map(messages).map(Result::unwrap) {
            for value in message.body() {
                let bytes = signal(order).build(&value).unwrap();
                assert_eq!(Message::parse(&bytes).unwrap().body_as::<Value>(), Ok(value));
            }
        }
    }
}

#[test]
fn calls_are_replied_to() {
    for call in CAPTURES.into_iter().flat_map(messages).map(Result::unwrap) {
        let call = call.message();
        assert_eq!(call.wants_reply(), call.kind() == Kind::MethodCall && call.flags().bits() & 1 == 0);
        let body = spell(call.order(), ("x", 7.5)).unwrap();
        for (error_name, kind) in [(None, Kind::MethodReturn), (Some("a.b"), Kind::Error)] {
            let parts = Parts { error_name, signature: body.signature(), body: body.bytes(), ..Parts::new(kind, 9) };
            let right = reply_to(&call, &parts, &Limits::default()).unwrap();
            let made = match error_name {
                None => call.reply(9, ("x", 7.5)),
                Some(name) => call.reply_error(9, name, ("x", 7.5)),
            };
            assert_eq!(made, Ok(right));
        }
    }
}

// Gives one byte at a read, and notes how many it gave.
struct ByBytes<'a>(&'a [u8], &'a mut usize);

impl Read for ByBytes<'_> {
    fn read(&mut self, room: &mut [u8]) -> io::Result<usize> {
        let count = room.len().min(1);
        *self.1 += count.min(self.0.len());
        self.0.read(&mut room[..count])
    }
}

#[test]
fn the_messages_of_a_source_are_read_one_by_one() {
    for capture in CAPTURES {
        let (mut given, mut length) = (0, 0);
        let mut source = messages(ByBytes(capture, &mut given));
        while let Some(message) = source.next().transpose().unwrap() {
            length += message.bytes().len();
            assert_eq!(message.bytes(), Message::parse(&capture[length - message.bytes().len()..]).unwrap().bytes());
            assert_eq!(OwnedMessage::from(message.message()).into_bytes(), message.bytes());
        }
        assert!(source.next().is_none());
        assert_eq!((given, length), (capture.len(), capture.len()));
    }
    let mut given = 0;
    let first = messages(ByBytes(CAPTURES[0], &mut given)).next().unwrap().unwrap();
    assert_eq!(first.bytes().len(), given);
}

#[test]
fn what_is_no_message_ends_them() {
    let capture = CAPTURES[0];
    let first = Message::parse(capture).unwrap().bytes().len();
    let with = |at: usize, byte: u8| [&capture[..at], &[byte], &capture[at + 1..]].concat();
    for (bytes, limits, count, fault) in [
        (capture[..=first].to_vec(), Limits::default(), 1, (first + 1, Reason::Truncated)),
        (capture[..first + 99].to_vec(), Limits::default(), 1, (first + 99, Reason::Truncated)),
        (with(first, b'x'), Limits::default(), 1, (first, Reason::ByteOrder)),
        (with(first + 3, 2), Limits::default(), 1, (first + 3, Reason::Version)),
        (with(first + 16, 0), Limits::default(), 1, (first + 16, Reason::FieldCode)),
        (capture.to_vec(), Limits { message: 16, ..Limits::default() }, 0, (12, Reason::MessageTooLong)),
    ] {
        let mut source = messages(&bytes[..]).within(limits);
        assert_eq!(source.by_ref().take(count).flatten().count(), count);
        let Some(Err(ReadError::Refused(Fault { at, reason }))) = source.next() else { panic!("{fault:?}") };
        assert_eq!(((at, reason), source.next().is_none()), (fault, true));
    }
    struct Broken;
    impl Read for Broken {
        fn read(&mut self, _: &mut [u8]) -> io::Result<usize> {
            Err(io::ErrorKind::TimedOut.into())
        }
    }
    let mut source = messages(capture[..first + 20].chain(Broken));
    assert!(source.next().unwrap().is_ok());
    assert!(matches!(source.next(), Some(Err(ReadError::Io(error))) if error.kind() == io::ErrorKind::TimedOut));
    assert!(source.next().is_none());
}

#[test]
fn both_ends_shake_hands_over_a_connection() {
    for (external, user, done) in
        [(External::AsReported, 7, true), (External::AsUser(7), 7, true), (External::AsUser(7), 8, false)]
    {
        let (client, server) = UnixStream::pair().unwrap();
        let serving = thread::spawn(move || {
            let shaken = Server::new(&"0".repeat(32), Some(user), false).unwrap().shake_hands(&server);
            (shaken.map_err(|error| error.kind()), messages(server).next().map(|read| read.unwrap().into_bytes()))
        });
        let shaken = Client::new(Some(external), None).unwrap().shake_hands(&client);
        assert_eq!(shaken.map_err(|error| error.kind()), if done { Ok(()) } else { Err(io::ErrorKind::ConnectionRefused) });
        let bytes = signal(Order::Little).build("first").unwrap();
        if done {
            io::Write::write_all(&mut &client, &bytes).unwrap();
        }
        drop(client);
        let right = if done { (Ok(()), Some(bytes)) } else { (Err(io::ErrorKind::UnexpectedEof), None) };
        assert_eq!(serving.join().unwrap(), right);
    }
}

#[test]
fn types_have_signatures() {
    assert_eq!(<(&[&str], [bool; 3], HashMap<UnixFd, AnyVariant>, Variant, Value)>::signature(), "(asaba{hv}vv)");
    assert_eq!(Option::<Vec<()>>::signature(), "a()");
}

structure! {
    #[derive(Clone, Debug, PartialEq)]
    struct Five<'a> {
        byte: u8,
        text: &'a str,
        numbers: Vec<i64>,
        pair: (bool, f64),
        path: ObjectPath<String>,
    }
}

dictionary! {
    #[derive(Clone, Debug, PartialEq)]
    struct Properties<'a> {
        byte: u8 = "Byte",
        text: &'a str = "Text",
        numbers: Option<Vec<u16>> = "Numbers",
        five: Option<Five<'a>> = "Five",
        held: Option<Vec<OwnedValue>> = "Held",
    }
}

#[test]
fn structs_go_there_and_back() {
    let five = Five { byte: 1, text: "a", numbers: vec![i64::MIN, -1], pair: (true, 0.5), path: ObjectPath("/a".into()) };
    let held = vec![OwnedValue::new(&five).unwrap(), OwnedValue::new([7u32]).unwrap()];
    for order in [Order::Little, Order::Big] {
        assert_eq!(Five::signature(), "(ysax(bd)o)");
        let bytes = signal(order).build((&five, 7u32)).unwrap();
        assert_eq!(Message::parse(&bytes).unwrap().body_as::<(Five, u32)>(), Ok((five.clone(), 7)));
        for all in [true, false] {
            let some = |is| if is { Some(()) } else { None };
            let properties = Properties {
                byte: 2,
                text: "b",
                numbers: some(all).map(|()| vec![0x1234, 5]),
                five: some(!all).map(|()| five.clone()),
                held: some(all).map(|()| held.clone()),
            };
            let bytes = signal(order).build(&properties).unwrap();
            let message = Message::parse(&bytes).unwrap();
            assert_eq!(message.signature(), Some("a{sv}"));
            assert_eq!(message.body_as::<HashMap<&str, Value>>().unwrap().len(), if all { 4 } else { 3 });
            assert_eq!(message.body_as(), Ok(properties));
        }
        let bytes = signal(order).build(BTreeMap::from([("Byte", VariantOf(7u8)), ("Other", VariantOf(0))])).unwrap();
        let bad = Message::parse(&bytes).unwrap().body_as::<Properties>().unwrap_err();
        assert_eq!(bad.to_string(), r#"body[0]["Text"]: wanted s, given no value"#);
        let bytes = signal(order).build(BTreeMap::from([("Byte", VariantOf("7"))])).unwrap();
        let bad = Message::parse(&bytes).unwrap().body_as::<Properties>().unwrap_err();
        assert_eq!(bad.to_string(), r#"body[0]["Byte"].value: wanted y, given s"#);
    }
}

#[test]
fn a_value_is_kept_after_its_message() {
    for order in [Order::Little, Order::Big] {
        let bytes = signal(order).build((VariantOf((vec![1.5, -0.0], "x", VariantOf([1i16, -2]))), VariantOf(7u32))).unwrap();
        let message = OwnedMessage::parse_within(bytes, &Limits::default()).unwrap();
        let (one, other) = message.body_as::<(OwnedValue, OwnedValue)>().unwrap();
        let equal = message.body_as::<(Value, Value)>().unwrap() == (one.value(), other.value());
        assert!(equal && one == one.clone() && one != other);
        let again = signal(order).build((&one, &other)).unwrap();
        assert_eq!(again, message.bytes());
        drop(message);
        let (numbers, text, held) = one.value().read::<(Vec<f64>, &str, VariantOf<Vec<i16>>)>().unwrap();
        assert_eq!((numbers, text, held), (vec![1.5, -0.0], "x", VariantOf(vec![1, -2])));
        assert_eq!((format!("{other:?}"), other.value()), ("Uint32(7)".into(), Value::Uint32(7)));
    }
    assert!(matches!(OwnedValue::try_from(Value::String("a\0")), Err(MakeError::BadValue(_))));
}
