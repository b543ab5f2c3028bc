//! The texts of types, made when a program is compiled.

// A body of 255 codes is that of a tuple, which has two more.
const ROOM: usize = 257;

/// One complete type as a signature, for [`Typed::TYPE`](crate::Typed::TYPE). A program with a type
/// of more than 257 codes is not compiled: no message has its values.
///
/// ```
/// use dbus_wire::{Typed, TypeText};
///
/// const TYPE: TypeText = TypeText::array(TypeText::structure(&[u32::TYPE, <&str>::TYPE]));
/// assert_eq!(TYPE.as_str(), "a(us)");
/// ```
#[derive(Clone, Copy, Debug)]
pub struct TypeText {
    codes: [u8; ROOM],
    length: usize,
}

impl TypeText {
    // No codes yet.
    const EMPTY: Self = Self { codes: [0; ROOM], length: 0 };

    /// The type of this code, which has no parts.
    pub(crate) const fn basic(code: u8) -> Self {
        Self::EMPTY.and(&[code])
    }

    /// That of the arrays of such elements.
    #[must_use]
    pub const fn array(element: Self) -> Self {
        Self::basic(b'a').and(element.codes())
    }

    /// That of the structs of such fields.
    #[must_use]
    pub const fn structure(fields: &[Self]) -> Self {
        Self::basic(b'(').and_all(fields).and(b")")
    }

    /// That of the dict entries of such a key and value, which are elements of an array.
    #[must_use]
    pub const fn entry(key: Self, value: Self) -> Self {
        Self::basic(b'{').and_all(&[key, value]).and(b"}")
    }

    /// As a text.
    #[must_use]
    pub const fn as_str(&self) -> &str {
        match std::str::from_utf8(self.codes()) {
            Ok(text) => text,
            Err(_) => unreachable!(),
        }
    }

    const fn codes(&self) -> &[u8] {
        self.codes.split_at(self.length).0
    }

    const fn and_all(mut self, others: &[Self]) -> Self {
        let mut at = 0;
        while at < others.len() {
            self = self.and(others[at].codes());
            at += 1;
        }
        self
    }

    const fn and(mut self, codes: &[u8]) -> Self {
        let mut at = 0;
        while at < codes.len() {
            assert!(self.length < ROOM, "a type has more codes than a signature can have");
            self.codes[self.length] = codes[at];
            self.length += 1;
            at += 1;
        }
        self
    }
}
