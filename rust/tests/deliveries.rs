//! Random deliveries of messages with descriptors, if `DBUS_WIRE_DELIVERIES_FILE` names a file of
//! them, which the script of the same name in `python/tests` writes: however its bytes are cut, each
//! message comes with its descriptors.

use std::collections::VecDeque;
use std::env;
use std::fs::{self, File};
use std::os::fd::OwnedFd;
use std::os::unix::fs::MetadataExt;
use std::os::unix::net::UnixStream;

use dbus_wire::{receive_with_fds, send_with_fds, Connection, End, Event, Limits, Server};

fn inode_of(fd: &OwnedFd) -> u64 {
    File::from(fd.try_clone().unwrap()).metadata().unwrap().ino()
}

// The bytes of the next message and its descriptors, or none as the handshake ends.
fn receive(from: &UnixStream, side: &mut Connection) -> (Vec<u8>, Vec<OwnedFd>) {
    let mut bytes = Vec::new();
    loop {
        let came = side.take(&bytes).unwrap();
        match came.event {
            Event::Message { .. } => return (bytes, side.fds()),
            Event::Begun { .. } => return (Vec::new(), Vec::new()),
            _ => drop(bytes.drain(..came.count)),
        }
        if let Event::Wants(count) = came.event {
            let (length, mut fds) = (bytes.len(), Vec::new());
            bytes.resize(count, 0);
            let count = receive_with_fds(from, &mut bytes[length..], &mut fds).unwrap();
            assert_ne!(count, 0, "there are no more bytes");
            bytes.truncate(length + count);
            assert!(fds.into_iter().all(|fd| side.keep_fd(fd, length)));
        }
    }
}

#[test]
fn deliveries_come_whole() {
    let Ok(file) = env::var("DBUS_WIRE_DELIVERIES_FILE") else { return };
    let names = ["Cargo.toml", "LICENSE", "README.md", "build.rs", "src/lib.rs", "src/bus.rs"];
    let root = env!("CARGO_MANIFEST_DIR");
    let files = names.map(|name| OwnedFd::from(File::open(format!("{root}/{name}")).unwrap()));
    let user = fs::metadata("/proc/self").unwrap().uid();
    let server = Server::with_descriptors("0123456789abcdef0123456789abcdef", Some(user), false).unwrap();
    let mut side = Connection::new(End::Server(server), &Limits::default(), u32::MAX, 1).unwrap();
    let ((own, other), mut sent, mut count) = (UnixStream::pair().unwrap(), VecDeque::new(), 0);
    for line in fs::read_to_string(file).unwrap().lines() {
        let words: Vec<_> = line.split(' ').collect();
        let chosen = words[2..].iter().map(|it| &files[it.parse::<usize>().unwrap()]);
        if words[0] == "message" {
            let (bytes, fds) = receive(&own, &mut side);
            let length: usize = words[1].parse().unwrap();
            assert!(bytes.iter().eq(&sent.drain(..length).collect::<Vec<_>>()), "{line}");
            assert!(fds.iter().map(inode_of).eq(chosen.map(inode_of)), "{line}");
        } else {
            let bytes: Vec<_> = (0..words[1].len()).step_by(2).map(|at| byte(&words[1][at..at + 2])).collect();
            let fds: Vec<_> = chosen.map(|it| it.try_clone().unwrap()).collect();
            send_with_fds(&other, &bytes, &fds).unwrap();
            sent.extend(bytes);
        }
        if count == 0 {
            // The first piece is a handshake.
            assert_eq!(receive(&own, &mut side).0, b"");
            sent.clear();
        }
        count += 1;
    }
    assert!(count > 2, "there are no deliveries");
}

fn byte(digits: &str) -> u8 {
    u8::from_str_radix(digits, 16).unwrap()
}
