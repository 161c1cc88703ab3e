//! Reads and writes a file of APDUs by hand, as main.rt.in does with the crates: the same checks, the same sums, the same lines printed.
//! Built by `rustc -O`.

mod reading;
mod writing;

use reading::*;
use writing::{put_apdu, put_told, told_len};

// What is measured

/// An APDU, and what it carries whole; `head` is the APDU without that.
#[derive(Clone, Copy)]
struct Message<'a> {
    head: Apdu<'a>,
    told: Told<'a>,
}

/// The message that an APDU is, or a number for why it is none.
fn read_message(octets: &[u8]) -> Result<Message<'_>, u64> {
    let apdu = read_apdu(octets).map_err(|fault| fault as u64)?;
    match apdu {
        Apdu::ConfirmedRequest { max_apdu, takes_segments, max_segments, invoke_id, segment: None, choice, service } => {
            let told = read_request(choice, service).map_err(|stop| 256 + reason(stop))?;
            let head = Apdu::ConfirmedRequest { max_apdu, takes_segments, max_segments, invoke_id, segment: None, choice, service: &[] };
            Ok(Message { head, told })
        }
        Apdu::ComplexAck { invoke_id, segment: None, choice, service } => {
            let told = read_reply(choice, service).map_err(|stop| fault(stop, service.len()))?;
            let head = Apdu::ComplexAck { invoke_id, segment: None, choice, service: &[] };
            Ok(Message { head, told })
        }
        head => Ok(Message { head, told: Told::Raw }),
    }
}

fn octets_sum(octets: &[u8]) -> u64 {
    octets.len() as u64 * 257 + octets.last().copied().unwrap_or(0) as u64
}

fn segment_sum(segment: Option<Segment>) -> u64 {
    match segment {
        None => 0,
        Some(segment) => 1 + segment.more as u64 * 2 + segment.number as u64 * 4 + segment.window as u64 * 1024,
    }
}

fn object_sum(object: Object) -> u64 {
    object.kind as u64 * 0x40_0000 + object.instance as u64
}

fn reference_sum(reference: Reference) -> u64 {
    let index = reference.index.map_or(0, |index| index as u64 + 1);
    object_sum(reference.object) ^ (reference.property as u64) << 20 ^ index << 30
}

fn told_sum(told: &Told) -> u64 {
    match *told {
        Told::Raw => 0,
        Told::ReadFile { file, records, start, count } => 1 ^ object_sum(file) ^ (records as u64) << 40 ^ start.unsigned_abs() << 8 ^ count << 16,
        Told::WriteStream { file, start, content } => 2 ^ object_sum(file) ^ start.unsigned_abs() << 8 ^ octets_sum(content) << 16,
        Told::WriteRecords { file, start, count, run } => 3 ^ object_sum(file) ^ start.unsigned_abs() << 8 ^ count << 16 ^ octets_sum(run) << 24,
        Told::ReadProperty(reference) => 4 ^ reference_sum(reference),
        Told::WriteProperty { reference, values, priority } => {
            5 ^ reference_sum(reference) ^ octets_sum(values) << 16 ^ priority.map_or(0, |number| number as u64) << 50
        }
        Told::FileRead { end_of_file, start, content } => 6 ^ (end_of_file as u64) << 40 ^ start.unsigned_abs() << 8 ^ octets_sum(content) << 16,
        Told::FileWritten { records, start } => 7 ^ (records as u64) << 40 ^ start.unsigned_abs() << 8,
        Told::PropertyRead { reference, values } => 8 ^ reference_sum(reference) ^ octets_sum(values) << 16,
    }
}

fn head_sum(head: &Apdu) -> u64 {
    match *head {
        Apdu::ConfirmedRequest { max_apdu, takes_segments, max_segments, invoke_id, segment, choice, service } => {
            let codes = max_apdu as u64 + takes_segments as u64 * 16 + max_segments as u64 * 32;
            1 ^ codes << 8 ^ (invoke_id as u64) << 16 ^ segment_sum(segment) << 24 ^ (choice as u64) << 48 ^ octets_sum(service) << 4
        }
        Apdu::UnconfirmedRequest { choice, service } => 2 ^ (choice as u64) << 48 ^ octets_sum(service) << 4,
        Apdu::SimpleAck { invoke_id, choice } => 3 ^ (invoke_id as u64) << 16 ^ (choice as u64) << 48,
        Apdu::ComplexAck { invoke_id, segment, choice, service } => {
            4 ^ (invoke_id as u64) << 16 ^ segment_sum(segment) << 24 ^ (choice as u64) << 48 ^ octets_sum(service) << 4
        }
        Apdu::SegmentAck { nak, server, invoke_id, number, window } => {
            5 ^ (nak as u64) << 8 ^ (server as u64) << 9 ^ (invoke_id as u64) << 16 ^ (number as u64) << 24 ^ (window as u64) << 32
        }
        Apdu::Error { invoke_id, choice, class, code } => 6 ^ (invoke_id as u64) << 16 ^ (choice as u64) << 48 ^ (class as u64) << 8 ^ (code as u64) << 24,
        Apdu::Reject { invoke_id, reason } => 7 ^ (invoke_id as u64) << 16 ^ (reason as u64) << 24,
        Apdu::Abort { server, invoke_id, reason } => 8 ^ (server as u64) << 8 ^ (invoke_id as u64) << 16 ^ (reason as u64) << 24,
    }
}

/// How many APDUs are read, and a sum of all that they say or of why they say nothing.
fn read_all(apdus: &[&[u8]]) -> (u64, u64) {
    let (mut count, mut sum) = (0, 0u64);
    for octets in apdus {
        let says = match read_message(octets) {
            Ok(message) => {
                count += 1;
                head_sum(&message.head) ^ told_sum(&message.told) << 1
            }
            Err(number) => number,
        };
        sum = sum.wrapping_mul(31).wrapping_add(says);
    }
    (count, sum)
}

/// How many octets are written, and a sum of them. Where that is wanted, it goes over each message for its length first, so that a vector grows once for it.
fn write_all<const AT_ONCE: bool>(messages: &[Message], out: &mut Vec<u8>) -> (u64, u64) {
    let (mut count, mut sum) = (0, 0u64);
    for message in messages {
        out.clear();
        put_apdu(&message.head, out);
        if AT_ONCE {
            out.reserve(told_len(&message.told));
        }
        put_told(&message.told, out);
        count += out.len() as u64;
        sum = sum.wrapping_mul(31).wrapping_add(octets_sum(out));
    }
    (count, sum)
}

/// Whether each message that is read is written as it was.
fn are_rewritten(apdus: &[&[u8]], out: &mut Vec<u8>) -> bool {
    apdus.iter().all(|octets| match read_message(octets) {
        Ok(message) => {
            out.clear();
            put_apdu(&message.head, out);
            let len = out.len() + told_len(&message.told);
            put_told(&message.told, out);
            out == octets && out.len() == len
        }
        Err(_) => true,
    })
}

#[repr(C)]
struct Time {
    seconds: i64,
    nanoseconds: i64,
}

unsafe extern "C" {
    fn clock_gettime(clock: i32, time: *mut Time) -> i32;
}

/// The nanoseconds of the thread's processor (CLOCK_THREAD_CPUTIME_ID).
fn now() -> u64 {
    let mut time = Time { seconds: 0, nanoseconds: 0 };
    unsafe { clock_gettime(3, &mut time) };
    time.seconds as u64 * 1_000_000_000 + time.nanoseconds as u64
}

/// The APDUs of a file: each has its length before it, in two octets.
fn apdus_in(file: &[u8]) -> Vec<&[u8]> {
    let (mut apdus, mut rest) = (Vec::new(), file);
    while let [high, low, after @ ..] = rest {
        let (apdu, next) = after.split_at(u16::from_be_bytes([*high, *low]) as usize);
        apdus.push(apdu);
        rest = next;
    }
    apdus
}

const MEASUREMENTS: u32 = 40;

fn main() {
    let file = std::fs::read(std::env::args().nth(1).expect("a file")).expect("a file");
    let apdus = apdus_in(&file);
    let messages: Vec<Message> = apdus.iter().filter_map(|octets| read_message(octets).ok()).collect();
    let mut out = Vec::with_capacity(65_536);
    let rewritten = are_rewritten(&apdus, &mut out);
    let (mut read_least, mut write_least, mut at_once_least) = (u64::MAX, u64::MAX, u64::MAX);
    let (mut read, mut written, mut at_once) = ((0, 0), (0, 0), (0, 0));
    for _ in 0..MEASUREMENTS {
        let start = now();
        read = read_all(&apdus);
        let middle = now();
        written = write_all::<false>(&messages, &mut out);
        let third = now();
        at_once = write_all::<true>(&messages, &mut out);
        at_once_least = at_once_least.min(now() - third);
        write_least = write_least.min(third - middle);
        read_least = read_least.min(middle - start);
    }
    assert_eq!(written, at_once);
    println!("{} APDUs, {} read with sum {}, {} octets written with sum {}, rewritten {rewritten}", apdus.len(), read.0, read.1, written.0, written.1);
    println!("reading {read_least}");
    println!("writing {write_least}");
    println!("at_once {at_once_least}");
}
