//! Is the service org.example.Echo on the session bus: Swap returns two file descriptors in the
//! other order.

use dbus_wire::{Bus, UnixFd};

const NAME: &str = "org.example.Echo";

fn main() -> Result<(), Box<dyn std::error::Error>> {
    let mut bus = Bus::session()?;
    bus.method("/", NAME, "Swap", |bus, (first, second): (UnixFd, UnixFd)| {
        for UnixFd(index) in [second, first] {
            let fd = bus.asked_fds.get(index as usize).ok_or("no such descriptor came")?;
            bus.given_fds.push(fd.try_clone()?);
        }
        Ok((UnixFd(0), UnixFd(1)))
    });
    bus.request_name(NAME)?;
    bus.run()
}
