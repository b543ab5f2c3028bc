//! A body of values of Rust, with its signature.

use super::{types_in, ToValue};
use crate::{check_text, BadValue, Body, Order, TextKind};

/// A body and the types of its values, as [`spell`] makes both of values.
#[derive(Clone, Debug)]
pub struct Spelled {
    types: &'static str,
    body: Body,
}

impl Spelled {
    /// The types of the values, for [`Parts::signature`](crate::Parts::signature); `None` if there
    /// is no value.
    #[must_use]
    pub fn signature(&self) -> Option<&str> {
        (!self.types.is_empty()).then_some(self.types)
    }

    /// The bytes of the body, for [`Parts::body`](crate::Parts::body).
    #[must_use]
    pub fn bytes(&self) -> &[u8] {
        self.body.bytes()
    }
}

/// The body of a tuple of values, or of one value, in the byte order, and the signature that their
/// types make, which [`Typed`](crate::Typed) lists.
///
/// A text that is none of its type is refused, and so are types that make no signature: of over 255
/// codes, too deep, or a map whose keys are neither numbers nor texts.
///
/// ```
/// use dbus_wire::{spell, Order};
///
/// let body = spell(Order::Little, ("x", 1u32))?;
/// assert_eq!((body.signature(), body.bytes()), (Some("su"), b"\x01\0\0\0x\0\0\0\x01\0\0\0".as_slice()));
/// # Ok::<(), dbus_wire::BadValue>(())
/// ```
///
/// # Errors
///
/// If a text is none of its type, or if the types make no signature.
pub fn spell<T: ToValue>(order: Order, values: T) -> Result<Spelled, BadValue> {
    let one = T::signature();
    let types = types_in(one);
    check_text(TextKind::Signature, types.as_bytes())
        .map_err(|fault| BadValue::new("a SIGNATURE", format!("{types:?}: {fault}")).within("signature"))?;
    let mut body = Body::new(order);
    let put = values.put(&mut body);
    let put = if types.len() < one.len() { put } else { put.map_err(|bad| bad.at(0)) };
    put.map_err(|bad| bad.within("body"))?;
    Ok(Spelled { types, body })
}
