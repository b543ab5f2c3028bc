//! What the calls say of messages that are made here, and of the captures in `samples/`.

use std::num::NonZeroU32;
use std::thread;

use dbus_wire::{
    build, byteswap, check, check_text, client_line, explain, reply_to, server_line, wanted, Answer, Bounds, BuildError, Checker,
    Client, Command, Descriptors, External, Fault, HandshakeError, InputPlace, Kind, Limits, Line, LineFault, LinePlace, Message,
    NotPassed, Order, OwnerError, ParseError, Parts, Passage, Reason, Rule, RuleError, RuleReason, RuleSet, Server, StatedText,
    Status, SwapError, Taken, TextFault, TextKind, Value, Values, Watch,
};

const CAPTURES: [&[u8]; 2] = [include_bytes!("data/session.dbus"), include_bytes!("data/big-endian.dbus")];

fn align(bytes: &mut Vec<u8>, boundary: usize) {
    bytes.resize(bytes.len().next_multiple_of(boundary), 0);
}

// A header field of a text; one of type `g` has a byte for its length.
fn push_field(bytes: &mut Vec<u8>, code: u8, kind: u8, text: &str) {
    align(bytes, 8);
    bytes.extend([code, 1, kind, 0]);
    match kind {
        b'g' => bytes.push(text.len() as u8),
        _ => bytes.extend((text.len() as u32).to_le_bytes()),
    }
    bytes.extend(text.as_bytes());
    bytes.push(0);
}

// A little-endian signal with this body.
fn signal(signature: &str, body: &[u8]) -> Vec<u8> {
    let mut bytes = b"l\x04\x05\x01".to_vec();
    bytes.extend((body.len() as u32).to_le_bytes());
    bytes.extend([7, 0, 0, 0, 0, 0, 0, 0]);
    push_field(&mut bytes, 1, b'o', "/a");
    push_field(&mut bytes, 2, b's', "b.c");
    push_field(&mut bytes, 3, b's', "D");
    push_field(&mut bytes, 7, b's', ":1.2");
    push_field(&mut bytes, 8, b'g', signature);
    let fields = bytes.len() as u32 - 16;
    bytes[12..16].copy_from_slice(&fields.to_le_bytes());
    align(&mut bytes, 8);
    bytes.extend(body);
    bytes
}

// The messages of a capture.
fn messages(mut bytes: &[u8]) -> Vec<Message<'_>> {
    let mut all = Vec::new();
    while !bytes.is_empty() {
        let message = Message::parse(bytes).expect("a capture has messages alone");
        bytes = &bytes[message.bytes().len()..];
        all.push(message);
    }
    all
}

#[test]
fn numbers_come_as_they_are() {
    let mut body = vec![200, 0, 0, 0, 1, 0, 0, 0];
    body.extend((-2i16).to_le_bytes());
    body.extend(65_535u16.to_le_bytes());
    body.extend((-3i32).to_le_bytes());
    body.extend(4_000_000_000u32.to_le_bytes());
    align(&mut body, 8);
    body.extend((-5i64).to_le_bytes());
    body.extend(u64::MAX.to_le_bytes());
    body.extend((-0.5f64).to_le_bytes());
    body.extend(6u32.to_le_bytes());
    let right = [
        Value::Byte(200),
        Value::Boolean(true),
        Value::Int16(-2),
        Value::Uint16(65_535),
        Value::Int32(-3),
        Value::Uint32(4_000_000_000),
        Value::Int64(-5),
        Value::Uint64(u64::MAX),
        Value::Double(-0.5),
        Value::UnixFd(6),
    ];
    let bytes = signal("ybnqiuxtdh", &body);
    let message = Message::parse(&bytes).unwrap();
    assert_eq!(message.body().collect::<Vec<_>>(), right);
    let big = message.in_order(Order::Big);
    assert_eq!(Message::parse(&big).unwrap().body().collect::<Vec<_>>(), right);
}

#[test]
fn containers_are_iterators() {
    // s "é", o "/", g "ai", ay [1, 2], a{sv} {"k": 9 as y}, (u, as []), v of v of b.
    let mut body = b"\x02\0\0\0\xc3\xa9\0\0\x01\0\0\0/\0\x02ai\0\0\0\x02\0\0\0\x01\x02\0\0".to_vec();
    body.extend(b"\x0a\0\0\0\x01\0\0\0k\0\x01y\0\x09");
    align(&mut body, 8);
    body.extend(b"\x08\0\0\0\0\0\0\0");
    body.extend(b"\x01v\0\x01b\0\0\0\x01\0\0\0");
    let bytes = signal("sogaya{sv}(uas)v", &body);
    let message = Message::parse(&bytes).unwrap();
    let items = message.flatten();
    assert_eq!(items.iter().map(|item| item.code as u8 as char).collect::<String>(), "sogaa{svy(uavvb");
    assert_eq!([4, 9, 12, 14].map(|at| items[at].number), [4, 2, 2, 1]);
    assert_eq!(&bytes[items[13].offset as usize..][..items[13].length as usize], b"b");
    let mut values = message.body();
    assert_eq!(values.types(), "sogaya{sv}(uas)v");
    assert_eq!(values.next(), Some(Value::String("é")));
    assert_eq!(values.next().and_then(|value| value.as_str()), Some("/"));
    assert_eq!(values.next(), Some(Value::Signature("ai")));

    let Some(Value::Array(array)) = values.next() else { panic!() };
    assert_eq!((array.element_type(), array.bytes(), array.is_empty()), ("y", Some(&[1, 2][..]), false));
    assert_eq!(array.into_iter().collect::<Vec<_>>(), [Value::Byte(1), Value::Byte(2)]);

    assert_eq!(values.types(), "a{sv}(uas)v");
    let Some(Value::Array(dictionary)) = values.next() else { panic!() };
    assert_eq!((dictionary.element_type(), dictionary.bytes()), ("{sv}", None));
    let Some(Value::Entry(entry)) = dictionary.elements().next() else { panic!() };
    assert_eq!(entry.key(), Value::String("k"));
    let Value::Variant(variant) = entry.value() else { panic!() };
    assert_eq!((variant.signature(), variant.value()), ("y", Value::Byte(9)));

    let Some(Value::Struct(mut fields)) = values.next() else { panic!() };
    assert_eq!((fields.types(), fields.next(), fields.types()), ("uas", Some(Value::Uint32(8)), "as"));
    let Some(Value::Array(empty)) = fields.next() else { panic!() };
    assert_eq!((empty.element_type(), empty.is_empty(), empty.elements().next()), ("s", true, None));
    assert_eq!((fields.types(), fields.next()), ("", None));

    assert_eq!(format!("{values:?}"), "[Variant(Variant(Boolean(true)))]");
    assert_eq!((values.by_ref().count(), values.types(), values.next()), (1, "", None));
    assert_eq!(message.body(), Message::parse(&message.in_order(Order::Big)).unwrap().body());
}

#[test]
fn numbers_of_arrays_come_as_they_are() {
    // an [-2, 3], aad [[-0.5], []], ab [true], a(y) of 101 structs.
    let mut body = b"\x04\0\0\0\xfe\xff\x03\0\x14\0\0\0\x08\0\0\0".to_vec();
    body.extend((-0.5f64).to_le_bytes());
    body.extend(b"\0\0\0\0\0\0\0\0\x04\0\0\0\x01\0\0\0\x21\x03\0\0\0\0\0\0");
    (0..100).for_each(|number| body.extend([number, 0, 0, 0, 0, 0, 0, 0]));
    body.push(100);
    let bytes = signal("anaadaba(y)", &body);
    let big = Message::parse(&bytes).unwrap().in_order(Order::Big);
    for bytes in [bytes, big] {
        let message = Message::parse(&bytes).unwrap();
        let shown = format!("{:?}", message.body().take(3).collect::<Vec<_>>());
        let numbers = "[Array([Int16(-2), Int16(3)]), Array([Array([Double(-0.5)]), Array([])]), Array([Boolean(true)])]";
        assert_eq!(shown, numbers);
        let Some(Value::Array(structs)) = message.body().nth(3) else { panic!() };
        assert_eq!((structs.elements().types(), structs.elements().count()), ("(y)", 101));
        let Some(Value::Struct(mut last)) = structs.elements().last() else { panic!() };
        assert_eq!((last.next(), last.next()), (Some(Value::Byte(100)), None));
    }
}

#[test]
fn the_deepest_message_is_walked() {
    fn depth(values: Values<'_>) -> usize {
        let inner = values.map(|value| match value {
            Value::Variant(variant) => depth(variant.parts()),
            _ => 0,
        });
        inner.max().map_or(0, |inner| inner + 1)
    }
    let nested = |levels: usize| signal("v", &[b"\x01v\0".repeat(levels - 1), b"\x01y\0\x07".to_vec()].concat());
    let deepest = (1..100).take_while(|levels| Message::parse(&nested(*levels)).is_ok()).last().unwrap();
    assert_eq!(depth(Message::parse(&nested(deepest)).unwrap().body()), deepest + 1);
    let Err(ParseError::Refused(fault)) = Message::parse(&nested(deepest + 1)) else { panic!() };
    assert_eq!((deepest, fault.reason), (64, Reason::TooDeep));
}

#[test]
fn a_message_has_its_fields() {
    let mut bytes = signal("y", &[1]);
    let length = bytes.len();
    bytes.extend(b"what follows");
    let message = Message::parse(&bytes).unwrap();
    assert_eq!(message.bytes(), &bytes[..length]);
    assert_eq!((message.order(), message.kind(), message.serial()), (Order::Little, Kind::Signal, 7));
    let flags = message.flags();
    assert_eq!((flags.bits(), flags.no_reply_expected(), flags.no_auto_start()), (5, true, false));
    assert!(flags.allow_interactive_authorization());
    assert_eq!((message.path(), message.interface(), message.member()), (Some("/a"), Some("b.c"), Some("D")));
    assert_eq!((message.sender(), message.signature()), (Some(":1.2"), Some("y")));
    assert_eq!((message.error_name(), message.destination(), message.reply_serial()), (None, None, None));
    assert_eq!((message.unix_fds(), message.body_bytes()), (0, &[1][..]));
    let codes: Vec<u8> = message.fields().map(|(code, _)| code).collect();
    assert_eq!(codes, [1, 2, 3, 7, 8]);
    assert_eq!(message.fields().find(|(code, _)| *code == 3), Some((3, Value::String("D"))));
    assert_eq!(wanted(&bytes, &Limits::default()), Some(length));
}

#[test]
fn what_is_no_message_says_why() {
    let bytes = signal("y", &[1]);
    for length in 0..bytes.len() {
        assert_eq!(Message::parse(&bytes[..length]).unwrap_err(), ParseError::Partial);
        assert_eq!(check(&bytes[..length], &Limits::default()), Answer::Partial);
    }
    let limits = Limits { message: 16, ..Limits::default() };
    let fault = check_fault(&bytes, &limits);
    assert_eq!(fault.reason, Reason::MessageTooLong);
    assert_eq!(Message::parse_within(&bytes, &limits).unwrap_err(), ParseError::Refused(fault));

    let index = signal("h", &[1, 0, 0, 0]);
    assert!(Message::parse(&index).is_ok());
    let limits = Limits { descriptors: Descriptors::BelowCount, ..Limits::default() };
    assert_eq!(check_fault(&index, &limits).reason, Reason::FdIndex);

    // A call without a PATH.
    let call = b"l\x01\0\x01\0\0\0\0\x01\0\0\0\0\0\0\0";
    assert_eq!(check_fault(call, &Limits::default()).reason, Reason::FieldMissing(1));
}

fn check_fault(bytes: &[u8], limits: &Limits) -> Fault {
    let Answer::Refused(fault) = check(bytes, limits) else { panic!("the bytes are not refused") };
    fault
}

#[test]
fn captures_are_the_same_in_either_order() {
    for capture in CAPTURES {
        for message in messages(capture) {
            let orders = [Order::Little, Order::Big].map(|order| message.in_order(order));
            for bytes in &orders {
                let other = Message::parse(bytes).unwrap();
                assert_eq!(other.in_order(message.order()), message.bytes());
                assert_eq!((other.body(), other.member()), (message.body(), message.member()));
            }
            assert_ne!(orders[0], orders[1]);
        }
    }
}

// How many values there are, with those that are in others.
fn count(values: Values<'_>) -> usize {
    let inner = |value| match value {
        Value::Array(array) => count(array.elements()),
        Value::Struct(fields) => count(fields),
        Value::Entry(entry) => count(entry.parts()),
        Value::Variant(variant) => count(variant.parts()),
        _ => 0,
    };
    values.map(|value| 1 + inner(value)).sum()
}

#[test]
fn changed_messages_are_walked_or_refused() {
    let mut counted = 0;
    for message in CAPTURES.iter().flat_map(|capture| messages(capture).into_iter().take(5)) {
        let mut bytes = message.bytes().to_vec();
        for at in 0..bytes.len() {
            for change in [0x01, 0x80, 0xFF] {
                bytes[at] ^= change;
                let parsed = Message::parse(&bytes).map(|message| message.bytes().len());
                let right = match check(&bytes, &Limits::default()) {
                    Answer::Whole { length, .. } => Ok(length),
                    Answer::Partial => Err(ParseError::Partial),
                    Answer::Refused(fault) => Err(ParseError::Refused(fault)),
                };
                assert_eq!(parsed, right);
                counted += Message::parse(&bytes).map_or(0, |message| count(message.body()));
                bytes[at] ^= change;
            }
        }
    }
    assert!(counted > 0);
}

#[test]
fn why_bytes_are_refused_is_explained() {
    let path = "/".to_owned() + &"a".repeat(2000);
    let names = Parts { path: Some(&path), interface: Some("b.c"), member: Some("D"), ..Parts::new(Kind::Signal, 1) };
    let parts = Parts { signature: Some("s"), body: b"\x02\0\0\0hi\0", ..names };
    let mut bytes = build(&parts, &Limits::default()).unwrap();
    let length = bytes.len();
    assert_eq!(explain(&bytes, &Limits::default(), InputPlace::default()), None);
    assert_eq!(explain(&bytes[..length - 1], &Limits::default(), InputPlace::default()), None);
    bytes[length - 1] = 1;
    let explanation = explain(&bytes, &Limits::default(), InputPlace { number: 2, offset: 96 }).unwrap();
    assert_eq!(explanation.fault, Fault { at: length - 1, reason: Reason::Nul });
    assert_eq!((explanation.name(), explanation.text), ("body[0]", Some(StatedText { at: length - 3, length: 2 })));
    assert_eq!(explanation.rule(), "a 0 follows a text (D-Bus Specification, \"Marshaling (Wire Format)\")");
    let head = format!("#2 l signal serial=1 flags=00 path={path} interface=b.c member=D signature=s");
    assert_eq!(explanation.head(), Some(&head[..]));
    let lines: Vec<_> = explanation.lines().lines().collect();
    assert_eq!((lines.len(), lines[1].trim_start(), lines[3].trim_start()), (4, &head[..], explanation.rule()));
    assert_eq!(explain(b"l\0", &Limits::default(), InputPlace::default()).unwrap().head(), None);
}

#[test]
fn a_swap_without_room_writes_nothing() {
    let bytes = signal("y", &[1]);
    let mut out = vec![0xAA; bytes.len() + 1];
    let short = &mut out[..bytes.len() - 1];
    let length = bytes.len();
    assert_eq!(byteswap(&bytes, &Limits::default(), Order::Big, short), Err(SwapError::NoRoom { length }));
    assert_eq!(byteswap(&bytes[..9], &Limits::default(), Order::Big, short), Err(SwapError::Partial));
    assert_eq!(
        byteswap(b"x", &Limits::default(), Order::Big, &mut []),
        Err(SwapError::Refused(Fault { at: 0, reason: Reason::ByteOrder }))
    );
    assert!(out.iter().all(|byte| *byte == 0xAA));
    assert_eq!(byteswap(&bytes, &Limits::default(), Order::Big, &mut out), Ok(length));
    assert_eq!((out[0], out[length]), (b'B', 0xAA));
}

#[test]
fn a_body_comes_with_its_message() {
    // More values than a first call has room for.
    let long = signal(&"y".repeat(200), &[7; 200]);
    for message in CAPTURES.into_iter().chain([&long[..]]).flat_map(messages) {
        let (same, body) = Message::parse_with_body(message.bytes(), &Limits::default()).unwrap();
        assert_eq!((same.parts(), format!("{body:?}")), (message.parts(), format!("{:?}", message.body())));
    }
    let refused = |bytes: &[u8]| Message::parse_with_body(bytes, &Limits::default()).map(drop).unwrap_err();
    assert_eq!(refused(&long[..20]), ParseError::Partial);
    assert_eq!(refused(b"l\0"), ParseError::Refused(Fault { at: 1, reason: Reason::Kind }));
}

#[test]
fn what_is_built_of_parts_has_them() {
    for capture in CAPTURES {
        for message in messages(capture) {
            let parts = Parts { serial: 77, destination: Some(":1.99"), ..message.parts() };
            let bytes = build(&parts, &Limits::default()).unwrap();
            let built = Message::parse(&bytes).unwrap();
            assert_eq!((built.parts(), built.bytes().len()), (parts, bytes.len()));
            assert_eq!(format!("{:?}", built.body()), format!("{:?}", message.body()));
        }
    }
}

#[test]
fn a_line_of_json_is_whole() {
    // Each character takes six bytes of the line, which is more room than there is at first.
    let text = "\u{1}".repeat(3000);
    let signal = Parts { path: Some("/"), interface: Some("a.b"), member: Some("C"), ..Parts::new(Kind::Signal, 1) };
    let bytes = signal.build((&text, 0.5)).unwrap();
    let line = Message::parse(&bytes).unwrap().to_json(LinePlace { number: 7, offset: 99, time: Some(1_000_000_005) });
    let start = r#"{"number":7,"offset":99,"time":"1.000000005","length":"#;
    let end = format!(r#","fields":[],"body":["{}",0.5]}}"#, r"\u0001".repeat(3000));
    assert!(line.starts_with(start) && line.ends_with(&end));
}

#[test]
fn a_line_of_json_is_read_back() {
    let limits = Limits::default();
    for message in CAPTURES.into_iter().flat_map(messages) {
        let read = Message::from_json(message.to_json(LinePlace::default()) + "\n", 0, &limits).unwrap();
        assert_eq!(read.bytes(), message.bytes());
    }
    // Each number takes two bytes of the line and eight of the message, which is more room than there
    // is at first.
    let signal = Parts { path: Some("/"), interface: Some("a.b"), member: Some("C"), ..Parts::new(Kind::Signal, 1) };
    let bytes = signal.build((vec![7u64; 3000],)).unwrap();
    let line = Message::parse(&bytes).unwrap().to_json(LinePlace::default());
    assert_eq!(Message::from_json(line, 0, &limits).unwrap().into_bytes(), bytes);
    let refused = |line: &[u8], limits: &Limits| match Message::from_json(line, 7, limits) {
        Err(BuildError::Refused(fault)) => (fault.at, fault.reason),
        other => panic!("{other:?}"),
    };
    assert_eq!(refused(b" {\"type\":2}", &limits), (1, Reason::FieldMissing(5)));
    assert_eq!(refused(b"\"\xFF", &limits), (1, Reason::NotUtf8));
    assert_eq!(refused(b"", &limits), (0, Reason::NotJson));
    let reply = br#"{"type":"method_return","reply_serial":1}"#;
    assert_eq!(Message::from_json(reply, 7, &limits).unwrap().serial(), 7);
    assert_eq!(refused(reply, &Limits { message: 23, ..limits }), (0, Reason::MessageTooLong));
}

#[test]
fn a_reply_goes_to_the_caller() {
    for call in CAPTURES.into_iter().flat_map(messages) {
        for (error_name, kind) in [(None, Kind::MethodReturn), (Some("a.b"), Kind::Error)] {
            let given = Parts { error_name, sender: Some(":1.99"), ..Parts::new(Kind::Signal, 9) };
            let bytes = reply_to(&call, &given, &Limits::default()).unwrap();
            let (reply_serial, destination) = (NonZeroU32::new(call.serial()), call.sender());
            let parts = Parts { kind, order: call.order(), flags: 1, reply_serial, destination, ..given };
            assert_eq!(Message::parse(&bytes).unwrap().parts(), parts);
        }
    }
}

#[test]
fn parts_of_no_message_are_refused() {
    let signal = Parts { path: Some("/"), interface: Some("a.b"), member: Some("C"), ..Parts::new(Kind::Signal, 1) };
    let refused = |parts: Parts<'_>| match build(&parts, &Limits::default()) {
        Err(BuildError::Refused(fault)) => (fault.reason, fault.field),
        other => panic!("{other:?}"),
    };
    let long = "y".repeat(256);
    assert!(build(&signal, &Limits::default()).is_ok());
    assert_eq!(refused(Parts { kind: Kind::Other(0), ..signal }), (Reason::Kind, 0));
    assert_eq!(refused(Parts { serial: 0, ..signal }), (Reason::ZeroSerial, 0));
    assert_eq!(refused(Parts { path: Some("a"), ..signal }), (Reason::Path, 1));
    assert_eq!(refused(Parts { sender: Some("a"), ..signal }), (Reason::BusName, 7));
    assert_eq!(refused(Parts { member: None, ..signal }), (Reason::FieldMissing(3), 3));
    assert_eq!(refused(Parts { signature: Some(&long), ..signal }), (Reason::Signature, 8));
    assert_eq!(refused(Parts { signature: Some("u"), body: &[0; 3], ..signal }), (Reason::Overrun, 0));
    assert_eq!(refused(Parts { signature: Some("u"), body: &[0; 5], ..signal }), (Reason::Trailing, 0));
    assert_eq!(refused(Parts { body: &[0], ..signal }), (Reason::Trailing, 0));
}

// The lengths of the messages of a stream that comes in pieces.
fn lengths(checker: &mut Checker, stream: &[u8], piece: usize) -> Vec<usize> {
    let (mut all, mut length) = (Vec::new(), 0);
    for mut piece in stream.chunks(piece) {
        while !piece.is_empty() {
            match checker.take(piece) {
                Taken::Whole { count } => {
                    all.push(length + count);
                    length = 0;
                    piece = &piece[count..];
                    checker.restart();
                }
                Taken::Partial => {
                    length += piece.len();
                    piece = &[];
                }
                Taken::Refused(fault) => panic!("{fault}"),
            }
        }
    }
    all
}

#[test]
fn a_checker_takes_pieces() {
    for capture in CAPTURES {
        let right: Vec<usize> = messages(capture).iter().map(|message| message.bytes().len()).collect();
        for piece in [1, 7, 64, 4096] {
            let mut checker = Checker::new(&Limits::default()).unwrap();
            assert_eq!(lengths(&mut checker, capture, piece), right);
            // It may go to another thread.
            let lengths = thread::spawn(move || lengths(&mut checker, capture, piece)).join().unwrap();
            assert_eq!(lengths, right);
        }
    }
    let mut checker = Checker::new(&Limits::default()).unwrap();
    assert_eq!(checker.take(&[]), Taken::Partial);
    assert_eq!(checker.take(b"l\x01\0"), Taken::Partial);
    let fault = Taken::Refused(Fault { at: 3, reason: Reason::Version });
    assert_eq!((checker.take(b"\x02"), checker.take(b"\x01")), (fault, fault));
}

#[test]
fn texts_are_of_their_kinds() {
    let good = [
        (TextKind::String, "é \n"),
        (TextKind::ObjectPath, "/a/b_1"),
        (TextKind::Interface, "a.b"),
        (TextKind::Member, "Get_1"),
        (TextKind::ErrorName, "a.b"),
        (TextKind::BusName, ":1.2"),
        (TextKind::Signature, "a{sv}u"),
        (TextKind::SingleType, "a{sv}"),
    ];
    for (kind, text) in good {
        assert_eq!(check_text(kind, text.as_bytes()), Ok(text));
        assert_eq!(check_text(kind, b"\xff"), Err(TextFault::Bad { at: 0 }));
    }
    assert_eq!(check_text(TextKind::SingleType, b"a{sv}u"), Err(TextFault::Bad { at: 5 }));
    assert_eq!(check_text(TextKind::Member, &[b'a'; 256]), Err(TextFault::TooLong));
    assert_eq!(check_text(TextKind::String, b""), Ok(""));
}

#[test]
fn rules_match_messages_by_their_keys_and_owners() {
    let bytes = signal("s", b"\x02\0\0\0hi\0");
    let message = Message::parse(&bytes).unwrap();
    for (text, right) in [("", true), ("type='signal',arg0='hi'", true), ("member='E'", false), ("sender='org.a.B'", false)] {
        assert_eq!(Rule::parse(text).unwrap().matches(&message).unwrap(), right, "{text}");
    }
    let mut rule = Rule::parse("sender='org.a.B'").unwrap();
    for (name, owner, right) in [
        ("org.a.C", ":1.2", false),
        ("org.a.B", ":1.2", true),
        ("org.a.B", ":1.3", false),
        ("org.a.B", ":1.2", true),
        ("org.a.B", "", false),
    ] {
        rule.set_owner(name, owner).unwrap();
        assert_eq!(rule.matches(&message).unwrap(), right, "{name} of {owner}");
    }
    assert_eq!(rule.set_owner("org.a.B\nx", ":1.2"), Err(OwnerError::Refused(TextFault::Bad { at: 7 })));
    assert_eq!(rule.set_owner("org.a.B", "b"), Err(OwnerError::Refused(TextFault::Bad { at: 1 })));

    let mut rules = RuleSet::default();
    let [all, mine, errors] = ["", "sender='org.a.B'", "type='error'"].map(|text| rules.add(text).unwrap());
    rules.set_owner("org.a.B", ":1.2").unwrap();
    let found = rules.matching(&message).unwrap();
    assert!(found.len() == 2 && found.contains(&all) && found.contains(&mine));
    assert!(rules.may_match(&message, None));
    assert!(rules.remove(mine) && !rules.remove(mine) && rules.text(mine).unwrap().is_none());
    assert_eq!(rules.matching(&message).unwrap(), [all]);
    assert!(rules.remove(all) && !rules.may_match(&message, None));
    assert_eq!(rules.text(errors).unwrap().unwrap(), "type='error'");

    let [all, eavesdrops] = ["", "eavesdrop='true'"].map(|text| rules.add(text).unwrap());
    rules.ask_as_bus(true).unwrap();
    for message in messages(CAPTURES[0]) {
        let found = rules.matching(&message).unwrap();
        assert!(found.contains(&all) == message.destination().is_none() && found.contains(&eavesdrops));
    }
}

#[test]
fn one_set_of_rules_is_asked_by_many_threads() {
    let bytes = signal("s", b"\x02\0\0\0hi\0");
    let message = Message::parse(&bytes).unwrap();
    let mut rules = RuleSet::default();
    let [all, errors] = ["", "type='error'"].map(|text| rules.add(text).unwrap());
    let rules = &rules;
    thread::scope(|scope| {
        for _ in 0..4 {
            scope.spawn(|| {
                (0..1000).for_each(|_| assert_eq!(rules.matching(&message).unwrap(), [all]));
                assert!(rules.may_match(&message, None));
                assert_eq!(rules.text(errors).unwrap().unwrap(), "type='error'");
            });
        }
    });
}

#[test]
fn rules_have_a_canonical_text_or_a_fault() {
    let long = format!("arg0='{}',type=error", "x".repeat(1000));
    let text = Rule::parse(&long).unwrap().to_text().unwrap();
    assert_eq!(text, format!("type='error',arg0='{}'", "x".repeat(1000)));
    let rule = thread::spawn(move || Rule::parse(&text).unwrap()).join().unwrap();
    assert!(!rule.matches(&Message::parse(&signal("", b"")).unwrap()).unwrap());
    for (text, at, reason) in [("a", 1, RuleReason::NoEquals), ("arg0='a", 5, RuleReason::OpenQuote), ("a\0", 1, RuleReason::Nul)]
    {
        let Err(RuleError::Refused(fault)) = Rule::parse(text) else { panic!("{text}") };
        assert_eq!((fault.at, fault.reason), (at, reason));
    }
}

// Both ends, whose bytes come in pieces, and each caller's bytes after its handshake: the bytes
// that are left.
fn shake(client: &mut Client, server: &mut Server, size: usize) -> (Status, Status, Vec<u8>) {
    let (mut to_client, mut to_server) = (Vec::new(), Vec::new());
    let mut ends = (Status::Talking, Status::Talking);
    for _ in 0..10_000 {
        if ends.0 == Status::Talking {
            let step = client.take(&to_client[..size.min(to_client.len())]).unwrap();
            ends.0 = step.status;
            to_server.extend(step.reply);
            if step.status == Status::Begun {
                to_server.extend(b"l\x01");
            }
            to_client.drain(..step.count);
        }
        let step = server.take(&to_server[..size.min(to_server.len())]).unwrap();
        ends.1 = step.status;
        to_client.extend(step.reply);
        to_server.drain(..step.count);
        if ends.0 != Status::Talking && ends.1 != Status::Talking {
            break;
        }
    }
    (ends.0, ends.1, to_server)
}

#[test]
fn both_ends_shake_hands() {
    let guid = "0123456789ABCDEF0123456789abcdef";
    for size in [1, 5, 4096] {
        for (external, user) in [(Some(External::AsUser(7)), Some(7)), (Some(External::AsReported), Some(7)), (None, None)] {
            let mut client = Client::new(external, Some(&[b't'; 255])).unwrap();
            let mut server = thread::spawn(move || Server::new(guid, user, true).unwrap()).join().unwrap();
            assert_eq!(client.guid(), None);
            let left = shake(&mut client, &mut server, size);
            assert_eq!(left, (Status::Begun, Status::Begun, b"l\x01".to_vec()));
            assert_eq!(client.guid(), Some(guid.to_lowercase()));
        }
    }
}

#[test]
fn a_watch_passes_lines_on() {
    let mut watch = Watch::new();
    let ok = b"OK 0123456789abcdef0123456789abcdef\r\n";
    let command = |passage: Result<Passage<'_>, NotPassed>| match passage {
        Ok(Passage::Line(line)) => Some(line.command),
        _ => None,
    };
    assert_eq!(watch.client(b""), Ok(Passage::More));
    assert_eq!(watch.client(b"\0AUTH EXTERNAL\r\n"), Ok(Passage::Nul));
    assert_eq!(command(watch.client(b"AUTH EXTERNAL\r\nBEGIN\r\n")), Some(Command::Auth));
    assert_eq!(watch.client(b"BEGIN\r\nl"), Ok(Passage::Waits));
    assert_eq!(command(watch.server(ok)), Some(Command::Ok));
    assert_eq!(command(watch.client(b"BEGIN\r\nl")), Some(Command::Begin));
    assert_eq!((watch.client(b"l"), watch.server(b"l")), (Ok(Passage::Messages), Ok(Passage::Messages)));
    let mut watch = Watch::new();
    assert_eq!((watch.server(ok), watch.client(b"\0")), (Err(NotPassed::OutOfTurn(Command::Ok)), Err(NotPassed::Before)));
    // NEGOTIATE_UNIX_FD is answered by AGREE_UNIX_FD or ERROR.
    for (answer, passes) in [
        (b"AGREE_UNIX_FD\r\n".as_slice(), true),
        (b"ERROR\r\n", true),
        (b"REJECTED\r\n", false),
        (b"DATA\r\n", false),
        (ok, false),
    ] {
        let mut watch = Watch::new();
        watch.client(b"\0").unwrap();
        watch.client(b"AUTH\r\n").unwrap();
        watch.client(b"NEGOTIATE_UNIX_FD\r\n").unwrap();
        watch.server(ok).unwrap();
        assert_eq!(watch.server(answer).is_ok(), passes);
    }
}

#[test]
fn a_server_rejects_no_more_than_its_bounds() {
    for (line, bounds) in
        [(b"AUTH\r\n".as_slice(), Bounds { rejections: 6, errors: 0 }), (b"HELLO\r\n", Bounds { rejections: 0, errors: 6 })]
    {
        let mut server = Server::new(&"0".repeat(32), Some(7), false).unwrap();
        server.set_bounds(bounds);
        server.take(b"\0").unwrap();
        for _ in 0..6 {
            assert_eq!(server.take(line).unwrap().status, Status::Talking);
        }
        let step = server.take(line).unwrap();
        assert_eq!((step.count, step.reply, step.status), (0, b"".as_slice(), Status::Closed));
    }
    let mut client = Client::new(Some(External::AsUser(7)), None).unwrap();
    client.set_bounds(Bounds { rejections: 0, errors: 1 });
    client.take(b"").unwrap();
    assert_eq!(client.take(b"X\r\n").unwrap().reply, b"ERROR\r\n");
    assert_eq!(client.take(b"X\r\n").unwrap().status, Status::Closed);
}

#[test]
fn lines_between_others() {
    let line = client_line(b"AUTH  A 6C \r\nBEGIN").unwrap().unwrap();
    assert_eq!(line, Line { length: 13, command: Command::Auth, mechanism: Some("A"), text: Some("6C"), is_exact: false });
    let line = server_line(b"REJECTED A  B\r\n").unwrap().unwrap();
    assert_eq!(line, Line { length: 15, command: Command::Rejected, mechanism: None, text: Some("A  B"), is_exact: false });
    let exact = |bytes| client_line(bytes).unwrap().map(|line| line.is_exact);
    assert_eq!([exact(b"AUTH A 6c\r\n"), exact(b"BEGIN\r\n"), exact(b"BEGIN \r\n")], [Some(true), Some(true), Some(false)]);
    assert_eq!(server_line(b"BEGIN\r\n").unwrap().map(|line| line.command), Some(Command::Other));
    assert_eq!(client_line(b"BEGIN\r"), Ok(None));
    assert_eq!(client_line(b"A\n"), Err(LineFault::BadByte { at: 1 }));
    assert_eq!(client_line(&[b'A'; 16383]), Err(LineFault::TooLong));
}

#[test]
fn ends_fail_or_are_not_made() {
    let mut client = Client::new(None, None).unwrap();
    assert_eq!(client.take(b"").unwrap().status, Status::Closed);
    let mut server = Server::new(&"0".repeat(32), None, false).unwrap();
    let step = server.take(b"AUTH\r\n").unwrap();
    assert_eq!((step.count, step.reply, step.status), (0, b"".as_slice(), Status::Closed));
    for guid in ["0".repeat(31), "0".repeat(33), "g".repeat(32)] {
        assert_eq!(Server::new(&guid, None, false).err(), Some(HandshakeError::BadGuid));
    }
    assert_eq!(Client::new(None, Some(&[0; 256])).err(), Some(HandshakeError::LongTrace));
}
