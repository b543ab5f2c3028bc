//! Is the service org.example.Counter on the session bus: a method with an error of its own, two
//! properties, and two signals.

use std::cell::{Cell, RefCell};
use std::error::Error;
use std::rc::Rc;

use dbus_wire::{Bus, ErrorReply};

const PATH: &str = "/org/example/Counter";
const NAME: &str = "org.example.Counter";

fn main() -> Result<(), Box<dyn Error>> {
    let (value, label) = (Rc::new(Cell::new(0u32)), Rc::new(RefCell::new("none".to_owned())));
    let (counted, read, written) = (value.clone(), label.clone(), label);
    let mut bus = Bus::session()?;
    bus.property(PATH, NAME, "Value", move || counted.get());
    bus.writable_property(
        PATH,
        NAME,
        "Label",
        move || read.borrow().clone(),
        move |it: String| {
            written.replace(it);
            Ok(())
        },
    );
    bus.signal::<u32>(PATH, NAME, "Changed");
    bus.method(PATH, NAME, "Add", move |bus, by: u32| {
        let sum = value
            .get()
            .checked_add(by)
            .ok_or_else(|| ErrorReply { name: "org.example.Error.Overflow".into(), text: "the sum has over 32 bits".into() })?;
        value.set(sum);
        bus.emit(PATH, NAME, "Changed", sum)?;
        bus.changed(PATH, NAME, "Value")?;
        Ok(sum)
    });
    bus.request_name(NAME)?;
    bus.run()
}
