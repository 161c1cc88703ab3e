//! Asks a node at a UDP port of 127.0.0.1 for the present-value of analog-input 5, with a window of requests in flight on each of some sockets:
//! drive PORT SOCKETS WINDOW KEYS COUNT ANSWER. KEYS is how many invoke IDs each socket uses, ANSWER the first octet of the APDU that answers.
use std::net::UdpSocket;
use std::thread;
use std::time::{Duration, Instant};

const READ: [u8; 17] = *b"\x81\x0A\x00\x11\x01\x04\x00\x05\x00\x0C\x0C\x00\x00\x00\x05\x19\x55";

/// The place of the first octet of an APDU in a datagram without addresses.
const APDU: usize = 6;

/// The place of the invoke ID in the request.
const INVOKE_ID: usize = 8;

#[derive(Clone, Copy)]
struct Asking {
    port: u16,
    window: u64,
    keys: u64,
    count: u64,
    answer: u8,
}

fn send(socket: &UdpSocket, number: u64, asking: Asking) {
    let mut octets = READ;
    octets[INVOKE_ID] = (number % asking.keys) as u8;
    socket.send(&octets).expect("a datagram that is sent");
}

/// Asks until so many were answered; how many were lost.
fn ask(asking: Asking) -> u64 {
    let socket = UdpSocket::bind("127.0.0.1:0").expect("a socket");
    socket.connect(("127.0.0.1", asking.port)).expect("a peer");
    socket.set_read_timeout(Some(Duration::from_millis(200))).expect("a timeout");
    let (mut sent, mut answered, mut lost) = (0, 0, 0);
    let mut buffer = [0; 2048];
    while answered < asking.count {
        while sent - answered - lost < asking.window {
            send(&socket, sent, asking);
            sent += 1;
        }
        match socket.recv(&mut buffer) {
            Ok(len) if len > APDU && buffer[APDU] == asking.answer => answered += 1,
            Ok(len) => panic!("another answer: {:?}", &buffer[..len]),
            Err(_) => lost = sent - answered,
        }
    }
    lost
}

fn main() {
    let words: Vec<u64> = std::env::args().skip(1).map(|word| word.parse().expect("a number")).collect();
    let [port, sockets, window, keys, count, answer] = words[..] else {
        panic!("six numbers");
    };
    let asking = Asking { port: port as u16, window, keys, count: count / sockets, answer: answer as u8 };
    let start = Instant::now();
    let asked: Vec<_> = (0..sockets).map(|_| thread::spawn(move || ask(asking))).collect();
    let lost: u64 = asked.into_iter().map(|one| one.join().expect("answers")).sum();
    println!("{} {lost}", start.elapsed().as_nanos());
}
