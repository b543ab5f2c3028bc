//! Match rules.

use std::error::Error;
use std::fmt;
use std::ptr;

use crate::{check_text, sys, Limits, Message, OutOfMemory, RuleFault, TextFault, TextKind};

/// Why a rule is not made.
#[derive(Clone, Copy, Debug, PartialEq, Eq, Hash)]
#[non_exhaustive]
pub enum RuleError {
    /// The text spells none.
    Refused(RuleFault),
    /// There is no memory for it.
    OutOfMemory,
}

impl fmt::Display for RuleError {
    fn fmt(&self, f: &mut fmt::Formatter<'_>) -> fmt::Result {
        match self {
            RuleError::Refused(fault) => fault.fmt(f),
            RuleError::OutOfMemory => OutOfMemory.fmt(f),
        }
    }
}

impl Error for RuleError {}

/// Why the owner of a name is not noted.
#[derive(Clone, Copy, Debug, PartialEq, Eq, Hash)]
#[non_exhaustive]
pub enum OwnerError {
    /// The name is no bus name, or the owner neither a bus name nor empty: the fault of the first
    /// of the two that has one.
    Refused(TextFault),
    /// There is no memory for it.
    OutOfMemory,
}

impl fmt::Display for OwnerError {
    fn fmt(&self, f: &mut fmt::Formatter<'_>) -> fmt::Result {
        match self {
            OwnerError::Refused(fault) => fault.fmt(f),
            OwnerError::OutOfMemory => OutOfMemory.fmt(f),
        }
    }
}

impl Error for OwnerError {}

/// The id of a rule: it stands for the rule in the [`RuleSet`] that it was added to, and for no
/// other rule of that set.
#[derive(Clone, Copy, Debug, PartialEq, Eq, Hash)]
pub struct RuleId(sys::dbus_wire_rule_id);

/// Match rules, and the owners of names, which a rule's `sender` is compared with. The rules that
/// match a message are found without asking each of them. Threads may ask one set at the same time:
/// that is tested, and not proved.
///
/// ```
/// use dbus_wire::{Message, RuleSet};
///
/// # let signal = b"l\x04\0\x01\0\0\0\0\x01\0\0\0\x2a\0\0\0\x01\x01o\0\x01\0\0\0/\0\0\0\0\0\0\0\x02\x01s\0\x03\0\0\0a.b\0\0\0\0\0\x03\x01s\0\x01\0\0\0c\0\0\0\0\0\0\0";
/// let mut rules = RuleSet::default();
/// let (signals, errors) = (rules.add("type='signal',member=c")?, rules.add("type='error'")?);
/// assert_eq!(rules.matching(&Message::parse(signal)?)?, [signals]);
/// assert!(rules.remove(errors) && !rules.remove(errors));
/// rules.set_owner("org.a.B", ":1.7")?;
/// # Ok::<(), Box<dyn std::error::Error>>(())
/// ```
#[derive(Debug)]
pub struct RuleSet {
    // Rules of the library's, until `drop`.
    raw: sys::dbus_wire_rules,
    // How many there are.
    count: usize,
}

// SAFETY: the header allows calls on rules from any thread, if one returns before the next begins,
// which a mutable reference sees to; and calls that only ask them, by a shared one, at the same time.
unsafe impl Send for RuleSet {}
// SAFETY: as above.
unsafe impl Sync for RuleSet {}

impl Default for RuleSet {
    fn default() -> Self {
        Self { raw: sys::dbus_wire_rules { inner: ptr::null_mut() }, count: 0 }
    }
}

impl RuleSet {
    /// Adds the rule that the text spells. After an error the set has the rules that it had.
    ///
    /// # Errors
    ///
    /// If the text spells no rule, or if there is no memory.
    pub fn add(&mut self, text: &str) -> Result<RuleId, RuleError> {
        let mut id = sys::dbus_wire_rule_id::default();
        let mut told = sys::dbus_wire_rule_refused::default();
        // SAFETY: a slice and references, as `sys` says; only calls write `raw`.
        match unsafe { sys::dbus_wire_rules_add(&raw mut self.raw, text.as_ptr(), text.len(), &raw mut id, &raw mut told) } {
            sys::DBUS_WIRE_OK => {
                self.count += 1;
                Ok(RuleId(id))
            }
            sys::DBUS_WIRE_REFUSED => Err(RuleError::Refused(RuleFault::new(told.offset, told.reason, 0))),
            _ => Err(RuleError::OutOfMemory),
        }
    }

    /// Removes the rule. Whether the set had it.
    pub fn remove(&mut self, id: RuleId) -> bool {
        // SAFETY: references, as `sys` says; only calls write `raw`.
        let was = unsafe { sys::dbus_wire_rules_remove(&raw mut self.raw, &raw const id.0) } == sys::DBUS_WIRE_OK;
        self.count -= usize::from(was);
        was
    }

    /// Notes the owner of a name, a unique name, in place of the one that was noted before; an
    /// empty text: the name has none from then on. After an error the set has the owners that it
    /// had.
    ///
    /// # Errors
    ///
    /// If one of the two is no name, or if there is no memory.
    pub fn set_owner(&mut self, name: &str, owner: &str) -> Result<(), OwnerError> {
        // SAFETY: slices and a reference, as `sys` says; only calls write `raw`.
        let answer =
            unsafe { sys::dbus_wire_rules_owner(&raw mut self.raw, name.as_ptr(), name.len(), owner.as_ptr(), owner.len()) };
        match answer {
            sys::DBUS_WIRE_OK => Ok(()),
            sys::DBUS_WIRE_REFUSED => {
                let is = |text: &str| check_text(TextKind::BusName, text.as_bytes()).map(drop);
                Err(OwnerError::Refused(is(name).and_then(|()| is(owner)).expect_err("one is no name")))
            }
            _ => Err(OwnerError::OutOfMemory),
        }
    }

    /// Asks the rules as a bus asks them from now on, or not: of a message with a DESTINATION it
    /// asks only rules with `eavesdrop='true'`.
    ///
    /// # Errors
    ///
    /// If memory runs out. The set is then asked as before.
    pub fn ask_as_bus(&mut self, as_bus: bool) -> Result<(), OutOfMemory> {
        // SAFETY: a reference, as `sys` says; only calls write `raw`.
        match unsafe { sys::dbus_wire_rules_as_bus(&raw mut self.raw, u32::from(as_bus)) } {
            sys::DBUS_WIRE_OK => Ok(()),
            _ => Err(OutOfMemory),
        }
    }

    /// The rules each key of which holds of the message. A `sender` that is a well-known name
    /// matches a message whose SENDER is that name itself, or that of its owner, which
    /// [`RuleSet::set_owner`] noted.
    ///
    /// # Errors
    ///
    /// If memory runs out.
    pub fn matching(&self, message: &Message<'_>) -> Result<Vec<RuleId>, OutOfMemory> {
        let (bytes, mut count, mut told) = (message.bytes(), 0, Default::default());
        let mut ids = vec![sys::dbus_wire_rule_id::default(); self.count];
        // SAFETY: slices and references, as `sys` says; only calls write `raw`.
        let answer = unsafe {
            sys::dbus_wire_rules_matching(
                &raw const self.raw,
                bytes.as_ptr(),
                bytes.len(),
                &Limits::default().raw(),
                ids.as_mut_ptr(),
                ids.len(),
                &raw mut count,
                &raw mut told,
            )
        };
        match answer {
            sys::DBUS_WIRE_WHOLE => Ok(ids.into_iter().take(count as usize).map(RuleId).collect()),
            sys::DBUS_WIRE_NO_MEMORY => Err(OutOfMemory),
            answer => unreachable!("rules answer {answer} of a message"),
        }
    }

    /// Whether any rule may match the message: whether it matches some message that this one may be
    /// taken for, as docs/MATCH-RULES.md says. Whoever forbids messages asks this. `sender` is the
    /// unique name that the bus writes as SENDER, if it is known.
    ///
    /// ```no_run
    /// # fn pass(message: &dbus_wire::Message<'_>) -> Result<bool, Box<dyn std::error::Error>> {
    /// let mut forbidden = dbus_wire::RuleSet::default();
    /// forbidden.add("interface='org.example.Lab',member='Erase'")?;
    /// Ok(!forbidden.may_match(message, Some(":1.7")))
    /// # }
    /// ```
    #[must_use]
    pub fn may_match(&self, message: &Message<'_>, sender: Option<&str>) -> bool {
        let (bytes, sender, mut may, mut told) = (message.bytes(), sender.unwrap_or(""), 0, Default::default());
        // SAFETY: slices and references, as `sys` says; only calls write `raw`.
        let answer = unsafe {
            sys::dbus_wire_rules_may_match(
                &raw const self.raw,
                bytes.as_ptr(),
                bytes.len(),
                &Limits::default().raw(),
                sender.as_ptr(),
                sender.len(),
                &raw mut may,
                &raw mut told,
            )
        };
        assert_eq!(answer, sys::DBUS_WIRE_WHOLE, "rules answer so of a message");
        may == 1
    }

    /// The canonical text of the rule, if the set has it: each key once in a fixed order, joined by
    /// commas without spaces, each value between apostrophes. It spells the same rule.
    ///
    /// # Errors
    ///
    /// If memory runs out.
    pub fn text(&self, id: RuleId) -> Result<Option<String>, OutOfMemory> {
        let mut text = vec![0; 256];
        loop {
            let mut length = 0;
            // SAFETY: a mutable slice and references, as `sys` says; only calls write `raw`.
            match unsafe {
                sys::dbus_wire_rules_text(&raw const self.raw, &raw const id.0, text.as_mut_ptr(), text.len(), &raw mut length)
            } {
                sys::DBUS_WIRE_OK => {
                    text.truncate(length as usize);
                    return Ok(Some(String::from_utf8(text).expect("a rule's text is UTF-8")));
                }
                sys::DBUS_WIRE_NO_ROOM => text.resize(length as usize + 1, 0),
                sys::DBUS_WIRE_NO_RULE => return Ok(None),
                _ => return Err(OutOfMemory),
            }
        }
    }
}

impl Drop for RuleSet {
    fn drop(&mut self) {
        // SAFETY: a reference, as `sys` says; only calls write `raw`, and nothing uses it after its
        // drop.
        unsafe { sys::dbus_wire_rules_free(&raw mut self.raw) };
    }
}

/// A match rule by itself: which messages a program wants. It is a [`RuleSet`] of one rule.
///
/// ```
/// use dbus_wire::{Message, Rule};
///
/// # let signal = b"l\x04\0\x01\0\0\0\0\x01\0\0\0\x2a\0\0\0\x01\x01o\0\x01\0\0\0/\0\0\0\0\0\0\0\x02\x01s\0\x03\0\0\0a.b\0\0\0\0\0\x03\x01s\0\x01\0\0\0c\0\0\0\0\0\0\0";
/// let rule = Rule::parse("type='signal',member=c")?;
/// assert!(rule.matches(&Message::parse(signal)?)?);
/// assert_eq!(rule.to_text()?, "type='signal',member='c'");
/// # Ok::<(), Box<dyn std::error::Error>>(())
/// ```
#[derive(Debug)]
pub struct Rule {
    rules: RuleSet,
    id: RuleId,
}

impl Rule {
    /// The rule that the text spells.
    ///
    /// # Errors
    ///
    /// If the text spells no rule, or if there is no memory.
    pub fn parse(text: &str) -> Result<Self, RuleError> {
        let mut rules = RuleSet::default();
        let id = rules.add(text)?;
        Ok(Self { rules, id })
    }

    /// Notes the owner of a name, as [`RuleSet::set_owner`] does.
    ///
    /// # Errors
    ///
    /// If one of the two is no name, or if there is no memory.
    pub fn set_owner(&mut self, name: &str, owner: &str) -> Result<(), OwnerError> {
        self.rules.set_owner(name, owner)
    }

    /// Whether each key of the rule holds of the message, as [`RuleSet::matching`] says.
    ///
    /// # Errors
    ///
    /// If memory runs out.
    pub fn matches(&self, message: &Message<'_>) -> Result<bool, OutOfMemory> {
        Ok(!self.rules.matching(message)?.is_empty())
    }

    /// Its canonical text, as [`RuleSet::text`] gives it.
    ///
    /// # Errors
    ///
    /// If memory runs out.
    pub fn to_text(&self) -> Result<String, OutOfMemory> {
        Ok(self.rules.text(self.id)?.expect("the set has the rule"))
    }
}
