//! A message as a line of JSON, and the message of one.

use crate::{sys, BuildError, BuildFault, Limits, Message, OwnedMessage};

/// What a line of JSON says of where its message stands. It is written as it is given.
///
/// The default is that of the first message of an input, at no known time.
#[derive(Clone, Copy, Debug, PartialEq, Eq, Hash)]
pub struct LinePlace {
    /// The number of the message, counted from 1.
    pub number: u64,
    /// Where it begins, in bytes from the start of the input.
    pub offset: u64,
    /// When it was captured, in nanoseconds since 1970 began in UTC, if that is known.
    pub time: Option<u64>,
}

impl Default for LinePlace {
    fn default() -> Self {
        Self { number: 1, offset: 0, time: None }
    }
}

impl Message<'_> {
    /// The message as a line of JSON, without a line feed: what `dbus-wire json` writes of it at
    /// this place, which its manual page describes. No two messages have one line.
    ///
    /// ```
    /// use dbus_wire::{Kind, LinePlace, Message, Parts};
    ///
    /// # let signal = Parts { path: Some("/"), interface: Some("a.b"), member: Some("C"), ..Parts::new(Kind::Signal, 1) };
    /// let bytes = signal.build(("x", 1u32))?;
    /// let line = Message::parse(&bytes)?.to_json(LinePlace::default());
    /// assert!(line.ends_with(r#""member":"C","signature":"su","fields":[],"body":["x",1]}"#));
    /// # Ok::<(), Box<dyn std::error::Error>>(())
    /// ```
    #[must_use]
    pub fn to_json(&self, place: LinePlace) -> String {
        let bytes = self.bytes();
        let raw = sys::dbus_wire_line_place {
            number: place.number,
            offset: place.offset,
            time: place.time.unwrap_or(0),
            has_time: place.time.is_some().into(),
        };
        let (limits, mut told, mut count) = (Limits::default().raw(), Default::default(), 0);
        // Room for most lines.
        let mut line = vec![0; bytes.len() * 2 + 256];
        loop {
            let (out, room) = (line.as_mut_ptr(), line.len());
            // SAFETY: slices and references, as `sys` says.
            let answer = unsafe {
                sys::dbus_wire_json(
                    bytes.as_ptr(),
                    bytes.len(),
                    &raw const limits,
                    &raw const raw,
                    out,
                    room,
                    &raw mut count,
                    &raw mut told,
                )
            };
            // The line, without its line feed; or room for both and for the 0 behind them.
            let is_whole = answer != sys::DBUS_WIRE_NO_ROOM;
            line.resize(if is_whole { count as usize - 1 } else { count as usize + 1 }, 0);
            if is_whole {
                break;
            }
        }
        debug_assert!(std::str::from_utf8(&line).is_ok());
        // SAFETY: a line of JSON is UTF-8.
        unsafe { String::from_utf8_unchecked(line) }
    }

    /// The message within the limits that a line of JSON spells, as [`Message::to_json`] writes it:
    /// what `dbus-wire encode` writes of it. Its manual page says which lines spell one: members may
    /// stand in any order, with white space anywhere, and some may be left out. A message whose line
    /// tells no serial has this one.
    ///
    /// The place of a fault counts from the first byte of the line.
    ///
    /// ```
    /// use dbus_wire::{BuildError, Limits, Message, Reason};
    ///
    /// let line = r#"{"type":"signal","path":"/","interface":"a.b","member":"C","signature":"u","body":[7]}"#;
    /// let signal = Message::from_json(line, 1, &Limits::default())?;
    /// assert_eq!(signal.body_as::<u32>().unwrap(), 7);
    /// let Err(BuildError::Refused(fault)) = Message::from_json(line.replace('7', "-7"), 1, &Limits::default()) else {
    ///     unreachable!()
    /// };
    /// assert_eq!((fault.at, fault.reason), (line.len() - 3, Reason::Range));
    /// # Ok::<(), BuildError>(())
    /// ```
    ///
    /// # Errors
    ///
    /// If the line spells no message within the limits, at a place in it, or if memory runs out in the
    /// library.
    pub fn from_json(line: impl AsRef<[u8]>, serial: u32, limits: &Limits) -> Result<OwnedMessage, BuildError> {
        let (line, limits) = (line.as_ref(), limits.raw());
        // Room for most messages.
        let (mut out, mut told) = (vec![0; line.len() * 2 + 256], sys::dbus_wire_checked::default());
        loop {
            // SAFETY: slices and references, as `sys` says.
            let answer = unsafe {
                sys::dbus_wire_from_json(
                    line.as_ptr(),
                    line.len(),
                    &raw const limits,
                    serial,
                    out.as_mut_ptr(),
                    out.len(),
                    &raw mut told,
                )
            };
            match answer {
                sys::DBUS_WIRE_OK => break,
                sys::DBUS_WIRE_NO_ROOM => out.resize(told.length as usize, 0),
                sys::DBUS_WIRE_NO_MEMORY => return Err(BuildError::OutOfMemory),
                _ => return Err(BuildError::Refused(BuildFault::new(&told))),
            }
        }
        Ok(OwnedMessage::known(out))
    }
}
