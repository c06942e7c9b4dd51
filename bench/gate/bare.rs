//! A bare loop: passes each datagram that comes at the inside port on to the wire of the outside, and the other way
//! round, from the sockets that a gateway would have, and does nothing with it.
//! usage: bare LINK INSIDE OUTSIDE WIRE-INSIDE WIRE-OUTSIDE
use std::io::ErrorKind;
use std::net::{Ipv4Addr, UdpSocket};

#[repr(C)]
struct PollFd {
    fd: i32,
    events: i16,
    revents: i16,
}

extern "C" {
    fn poll(fds: *mut PollFd, count: u64, milliseconds: i32) -> i32;
}

fn bind(port: u16) -> UdpSocket {
    let socket = UdpSocket::bind((Ipv4Addr::LOCALHOST, port)).expect("a port");
    socket.set_nonblocking(true).expect("not to block");
    socket
}

/// Passes on what is there, at most 256 datagrams.
fn empty(from: &UdpSocket, by: &UdpSocket, to: u16, room: &mut [u8]) {
    for _ in 0..256 {
        match from.recv_from(room) {
            Ok((count, _)) => {
                let _lost = by.send_to(&room[..count], (Ipv4Addr::LOCALHOST, to));
            }
            Err(error) if error.kind() == ErrorKind::WouldBlock => return,
            Err(_) => {}
        }
    }
}

fn main() {
    use std::os::fd::AsRawFd;
    let ports: Vec<u16> = std::env::args().skip(1).map(|word| word.parse().expect("a port")).collect();
    let sockets = [bind(ports[0]), bind(ports[1]), bind(ports[2])];
    let mut room = [0u8; 4096];
    loop {
        let mut fds: Vec<PollFd> = sockets
            .iter()
            .map(|socket| PollFd { fd: socket.as_raw_fd(), events: 1, revents: 0 })
            .collect();
        unsafe { poll(fds.as_mut_ptr(), 3, 10) };
        empty(&sockets[1], &sockets[2], ports[4], &mut room);
        empty(&sockets[2], &sockets[1], ports[3], &mut room);
    }
}
