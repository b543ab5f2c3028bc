//! Values of Rust as values of messages.

use super::Typed;
use crate::{BadValue, Body};

/// A type of Rust of which a value of a message is made: [`Typed`] says which those are.
pub trait ToValue: Typed {
    /// Puts the value to a body. A text that is none of its type is refused; then what is put so
    /// far stays in the body.
    ///
    /// # Errors
    ///
    /// If a text is none of its type, or if something is too long.
    fn put(&self, body: &mut Body) -> Result<(), BadValue>;

    /// Puts the elements of an array of this type.
    #[doc(hidden)]
    fn put_elements(elements: &[Self], body: &mut Body) -> Result<(), BadValue>
    where
        Self: Sized,
    {
        let mut places = elements.iter().enumerate();
        places.try_for_each(|(place, element)| element.put(body).map_err(|bad| bad.at(place)))
    }
}

impl<T: ToValue + ?Sized> ToValue for &T {
    fn put(&self, body: &mut Body) -> Result<(), BadValue> {
        T::put(self, body)
    }
}
