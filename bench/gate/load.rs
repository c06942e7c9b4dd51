//! Sends one frame again and again to a port, as fast as it comes back at another, and prints how many a second came.
//! It never sleeps: else what is measured would have to wake it for each frame as soon as it is the slower of the two,
//! and its time would be that of the wake-ups.
//! usage: load TO FROM BACK SECONDS WINDOW FRAME        (ports; FRAME in hexadecimal)
use std::net::{Ipv4Addr, UdpSocket};
use std::time::{Duration, Instant};

fn main() {
    let words: Vec<String> = std::env::args().skip(1).collect();
    let number = |at: usize| words[at].parse::<u64>().expect("a number");
    let frame: Vec<u8> = (0..words[5].len() / 2)
        .map(|at| u8::from_str_radix(&words[5][2 * at..2 * at + 2], 16).expect("hexadecimal"))
        .collect();
    let sender = UdpSocket::bind((Ipv4Addr::LOCALHOST, number(1) as u16)).expect("a port");
    let receiver = UdpSocket::bind((Ipv4Addr::LOCALHOST, number(2) as u16)).expect("a port");
    receiver.set_nonblocking(true).expect("not to block");
    let to = (Ipv4Addr::LOCALHOST, number(0) as u16);
    let (window, mut under_way, mut came, mut lost) = (number(4), 0u64, 0u64, 0u64);
    let mut room = [0u8; 4096];
    let mut idle = Instant::now();
    let start = Instant::now();
    while start.elapsed() < Duration::from_secs(number(3)) {
        while under_way < window {
            if sender.send_to(&frame, to).is_ok() {
                under_way += 1;
            }
        }
        // What else a gateway sends at this wire (advertisements, ARP) is shorter or of another kind.
        match receiver.recv_from(&mut room) {
            Ok((count, _)) if count == frame.len() && room[12..14] == frame[12..14] => {
                came += 1;
                under_way = under_way.saturating_sub(1);
                idle = Instant::now();
            }
            Ok(_) => {}
            Err(_) if idle.elapsed() < Duration::from_millis(50) => std::hint::spin_loop(),
            Err(_) => {
                lost += under_way;
                under_way = 0;
                idle = Instant::now();
            }
        }
    }
    println!("{} frames a second, {lost} lost", came / number(3));
}
