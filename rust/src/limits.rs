//! The limits that a message has to keep.

use crate::sys;

/// Which indexes of file descriptors a message's body may have.
#[derive(Clone, Copy, Debug, Default, PartialEq, Eq)]
#[non_exhaustive]
pub enum Descriptors {
    /// Any.
    #[default]
    Any,
    /// Those below the number in the UNIX_FDS field, which is 0 if that is absent.
    BelowCount,
}

/// Limits that a message has to keep. A number over the specification's stands for the
/// specification's; every other one, 0 too, is itself the limit.
///
/// ```
/// use dbus_wire::Limits;
///
/// let limits = Limits { message: 1 << 20, ..Limits::default() };
/// assert_eq!(limits.array, 67_108_864);
/// ```
#[derive(Clone, Copy, Debug, PartialEq, Eq)]
pub struct Limits {
    /// The greatest number of bytes of a message; the specification's is 134,217,728.
    pub message: u32,
    /// The greatest number of bytes of an array's contents; the specification's is 67,108,864.
    pub array: u32,
    /// The greatest number of containers (arrays, structs, variants) open at once, three of the
    /// header among them; the specification's is 64.
    pub depth: u32,
    /// Which indexes of file descriptors are valid.
    pub descriptors: Descriptors,
}

impl Limits {
    /// As the C calls take them.
    pub(crate) fn raw(&self) -> sys::dbus_wire_limits {
        let fds = match self.descriptors {
            Descriptors::Any => sys::DBUS_WIRE_FDS_ANY,
            Descriptors::BelowCount => sys::DBUS_WIRE_FDS_BELOW_COUNT,
        };
        sys::dbus_wire_limits { message: self.message, array: self.array, depth: self.depth, fds }
    }
}

impl Default for Limits {
    /// The specification's limits, which allow any index of a file descriptor.
    fn default() -> Self {
        let mut raw = sys::dbus_wire_limits::default();
        // SAFETY: a reference, as `sys` says.
        unsafe { sys::dbus_wire_specification_limits(&raw mut raw) };
        Self { message: raw.message, array: raw.array, depth: raw.depth, descriptors: Descriptors::Any }
    }
}
