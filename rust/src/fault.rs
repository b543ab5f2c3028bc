//! Why bytes are no message, why a text is no match rule, and why it is no server addresses.

use std::error::Error;
use std::fmt;

// The reasons by their numbers, each with its sentence, which is also its documentation.
macro_rules! reasons {
    ($(#[$doc:meta])* $reasons:ident: $($name:ident $(($field:ident))? = $number:literal, $sentence:literal;)*) => {
        $(#[$doc])*
        #[derive(Clone, Copy, Debug, PartialEq, Eq, Hash)]
        #[non_exhaustive]
        pub enum $reasons {
            $(#[doc = concat!($sentence, ".")] $name $(($field))?,)*
            /// A reason that this crate has no name for, by its number.
            Other(u32),
        }

        impl $reasons {
            // By its number, and a code if the reason has one.
            pub(crate) fn new(number: u32, _code: u32) -> Self {
                match number {
                    $($number => $reasons::$name $((_code as $field))?,)*
                    other => $reasons::Other(other),
                }
            }

            /// Its number in the C header.
            pub fn number(self) -> u32 {
                match self {
                    $($reasons::$name { .. } => $number,)*
                    $reasons::Other(number) => number,
                }
            }

            fn sentence(self) -> &'static str {
                match self {
                    $($reasons::$name { .. } => $sentence,)*
                    $reasons::Other(_) => "there is no such reason",
                }
            }
        }

        impl fmt::Display for $reasons {
            fn fmt(&self, f: &mut fmt::Formatter<'_>) -> fmt::Result {
                f.write_str(self.sentence())?;
                match self {
                    $($($reasons::$name(code) => write!(f, ": that of code {}", *code as $field),)?)*
                    $reasons::Other(number) => write!(f, ": {number}"),
                    _ => Ok(()),
                }
            }
        }
    };
}

reasons! {
    /// Why bytes, or a line of JSON, are refused: those from `NotUtf8` on of a line alone. Its text
    /// is a sentence in English without its full stop; `dbus-wire check` and `dbus-wire encode`
    /// print it as its `Debug` does.
    Reason:
    ByteOrder = 1, "the first byte is neither 'l' nor 'B'";
    Kind = 2, "the message type is 0, or a text that names none";
    Version = 3, "the protocol version is not 1";
    ZeroSerial = 4, "the serial, or the REPLY_SERIAL, is 0";
    ArrayTooLong = 5, "an array, or the header fields, have more bytes than the limit on arrays";
    MessageTooLong = 6, "the message has more bytes than the limit on messages";
    Padding = 7, "a padding byte is not 0";
    Overrun = 8, "something ends past the end of what it is in";
    Bool = 9, "a BOOLEAN is neither 0 nor 1";
    Text = 10, "a STRING is not UTF-8 without U+0000";
    Nul = 11, "the byte after a text is not 0";
    Path = 12, "an OBJECT_PATH is not a valid object path";
    Signature = 13, "a SIGNATURE is not valid, or that of a variant is not one complete type";
    Interface = 14, "the INTERFACE field is not a valid interface name";
    Member = 15, "the MEMBER field is not a valid member name";
    ErrorName = 16, "the ERROR_NAME field is not a valid error name";
    BusName = 17, "the DESTINATION or SENDER field is not a valid bus name";
    NameTooLong = 18, "the name in a header field has more than 255 bytes";
    FieldCode = 19, "the code of a header field is 0";
    FieldTwice = 20, "a known header field occurs twice";
    FieldType = 21, "a known header field has another type than its own";
    FieldMissing(u8) = 22, "a header field that the message type requires is missing";
    Trailing = 23, "bytes of the body are left after its last value";
    TooDeep = 24, "more containers are open at once than the limit on depth";
    Truncated = 25, "the input ends within a message";
    FdIndex = 26, "an index of a file descriptor is not below the number of descriptors";
    NotUtf8 = 28, "a line of JSON is not UTF-8";
    NotJson = 29, "a line is no JSON value, or one of more than 130 arrays and objects in one another";
    Form = 30, "a value of JSON has another form than is wanted";
    MemberUnknown = 31, "an object of JSON has a member that it may not have";
    MemberTwice = 32, "an object of JSON has two members of one name";
    TypeMissing = 33, "an object of JSON has no member `type`";
    ValueMissing = 34, "an object of JSON has no member `value`";
    CodeMissing = 35, "an object of JSON has no member `code`";
    BodyMissing = 36, "the message has a signature, and its JSON no member `body`";
    Order = 37, "the member `order` is neither l nor B";
    FieldKnown = 38, "an object in `fields` has the code of a field that is a member of its own";
    FieldPlace = 39, "an object in `fields` has a place where its field cannot be";
    NotInteger = 40, "a number has a point, an exponent or a minus before 0, and an integer is wanted";
    Range = 41, "a number is not in the range of its type";
    Digits = 42, "a string does not have the digits that its type wants";
    Count = 43, "an array of JSON has more or fewer values than there are types";
    MayBeRounded = 44, "an integer beyond 2^53 - 1 is a number, and has to be a string";
}

reasons! {
    /// Why a text spells no match rule. Its text is a sentence in English without its full stop;
    /// `dbus-wire filter` prints it as its `Debug` does.
    RuleReason:
    Nul = 1, "the text has U+0000";
    NoEquals = 2, "a comma, or the end, comes before the '=' of a key";
    KeyName = 3, "there is no such key";
    KeyTwice = 4, "a key occurs twice";
    PathAndNamespace = 5, "path and path_namespace are in one rule";
    OpenQuote = 6, "an apostrophe is not closed";
    BadValue = 7, "the key does not take the value";
    NotUtf8 = 8, "the text is not UTF-8";
}

reasons! {
    /// Why a text of server addresses is refused. Its text is a sentence in English without its full
    /// stop.
    AddressReason:
    TooLong = 1, "the text has more than 4,096 bytes";
    Transport = 2, "a byte of a transport, or the ':' after it, has to come";
    Key = 3, "a byte of a key, or the '=' after it, has to come";
    Value = 4, "a value has a byte that has to be escaped";
    Escape = 5, "a hexadecimal digit has to come after '%'";
    KeyTwice = 6, "an address has a key twice";
    Guid = 7, "the value of guid is not 32 hexadecimal digits";
}

macro_rules! faults {
    ($($(#[$doc:meta])* $fault:ident: $reason:ident, $whole:literal;)*) => {$(
        $(#[$doc])*
        #[derive(Clone, Copy, Debug, PartialEq, Eq, Hash)]
        pub struct $fault {
            #[doc = concat!("Its offset, in bytes from the first of the ", $whole, ".")]
            pub at: usize,
            /// Why.
            pub reason: $reason,
        }

        impl $fault {
            pub(crate) fn new(at: u64, reason: u32, code: u32) -> Self {
                Self { at: at as usize, reason: $reason::new(reason, code) }
            }
        }

        impl fmt::Display for $fault {
            fn fmt(&self, f: &mut fmt::Formatter<'_>) -> fmt::Result {
                write!(f, "{}, at byte {}", self.reason, self.at)
            }
        }

        impl Error for $fault {}
    )*};
}

faults! {
    /// Where and why bytes are refused: no message begins with those up to the fault's place, whatever
    /// follows.
    ///
    /// ```
    /// use dbus_wire::{Message, ParseError};
    ///
    /// let Err(ParseError::Refused(fault)) = Message::parse(b"l\x01\0\x02") else { unreachable!() };
    /// assert_eq!(fault.at, 3);
    /// assert_eq!(fault.to_string(), "the protocol version is not 1, at byte 3");
    /// ```
    Fault: Reason, "message";
    /// Where and why a text spells no rule.
    RuleFault: RuleReason, "text";
    /// Where and why a text of server addresses is refused.
    AddressFault: AddressReason, "text";
}

/// Why bytes begin with no message.
#[derive(Clone, Copy, Debug, PartialEq, Eq, Hash)]
pub enum ParseError {
    /// No message yet, and no fault: more bytes are needed.
    Partial,
    /// The bytes show a fault, so no message begins so, whatever follows.
    Refused(Fault),
}

impl fmt::Display for ParseError {
    fn fmt(&self, f: &mut fmt::Formatter<'_>) -> fmt::Result {
        match self {
            ParseError::Partial => f.write_str("the bytes end within a message"),
            ParseError::Refused(fault) => fault.fmt(f),
        }
    }
}

impl Error for ParseError {}

#[cfg(test)]
mod tests {
    use super::{AddressReason, Reason, RuleReason};
    use crate::sys;
    use std::fmt::Debug;

    const HEADER: &str = include_str!("../include/dbus_wire.h");

    type Call = unsafe extern "C" fn(u32, *mut u8, usize) -> usize;

    // What a call writes of a number.
    fn name(call: Call, number: usize) -> String {
        let mut text = [0; 32];
        // SAFETY: a mutable slice, as `sys` says.
        let length = unsafe { call(number as u32, text.as_mut_ptr(), text.len()) };
        String::from_utf8(text[..length].to_vec()).unwrap()
    }

    // The sentences of the header's function of this name, by their numbers.
    fn sentences(function: &str) -> Vec<&'static str> {
        let (_, code) = HEADER.split_once(&format!("static inline const char *{function}(uint32_t reason) {{")).unwrap();
        let (_, texts) = code.split_once("const texts[] = {").unwrap();
        let (texts, _) = texts.split_once("};").unwrap();
        texts.lines().filter_map(|line| line.trim().split_once('"')?.1.strip_suffix("\",")).collect()
    }

    // Compares reasons with what the library and the header have of each number.
    fn compare<R: Copy + Debug>(call: Call, function: &str, new: fn(u32, u32) -> R, said: fn(R) -> (u32, &'static str)) {
        let sentences = sentences(function);
        assert_eq!((name(call, 0), name(call, sentences.len())), (String::new(), String::new()));
        for (number, sentence) in sentences.into_iter().enumerate().filter(|it| it.1 != "reserved") {
            let reason = new(number as u32, 5);
            assert_eq!(said(reason), (number as u32, sentence));
            assert_eq!(format!("{reason:?}").replace("(5)", "").replace("Other(0)", ""), name(call, number));
        }
    }

    #[test]
    fn reasons_are_the_librarys_and_the_headers() {
        compare(sys::dbus_wire_reason_name, "dbus_wire_reason_text", Reason::new, |it| (it.number(), it.sentence()));
        compare(sys::dbus_wire_rule_reason_name, "dbus_wire_rule_reason_text", RuleReason::new, |it| {
            (it.number(), it.sentence())
        });
        let said = |it: AddressReason| (it.number(), it.sentence());
        compare(sys::dbus_wire_address_reason_name, "dbus_wire_address_reason_text", AddressReason::new, said);
        assert_eq!(Reason::new(99, 0), Reason::Other(99));
    }
}
