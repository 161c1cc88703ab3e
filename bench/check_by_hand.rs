//! Reads a capture of lines by hand, with the checks of `bac check` in their order, and prints the same last line. Built by `rustc -O`.

#[path = "codec/reading.rs"]
#[allow(dead_code)]
mod reading;

use reading::{Apdu, read_apdu, read_reply, read_request};
use std::io::{BufRead, BufReader};

/// Most octets of a line, without its end.
const LINE_LIMIT: usize = 132_000;

/// What is wrong with a line.
#[derive(Clone, Copy, Debug)]
enum Fault {
    NoCaptureLine,
    MomentGoesBack,
    Truncated,
    Version,
    NotUnicast,
    BadLength,
    BadNet,
    ReservedBits,
    Apdu,
    Service,
}

fn octet(octets: &[u8]) -> Result<(u8, &[u8]), Fault> {
    octets.split_first().map(|(first, rest)| (*first, rest)).ok_or(Fault::Truncated)
}

fn word(octets: &[u8]) -> Result<(u16, &[u8]), Fault> {
    match octets {
        [high, low, rest @ ..] => Ok((u16::from_be_bytes([*high, *low]), rest)),
        _ => Err(Fault::Truncated),
    }
}

/// What comes after the network's number and the address of a destination or of a source.
fn after_place(octets: &[u8], is_source: bool) -> Result<&[u8], Fault> {
    let (network, rest) = word(octets)?;
    if network == 0 || (network == 65_535 && is_source) {
        return Err(Fault::BadNet);
    }
    let (count, rest) = octet(rest)?;
    if count > 8 || (is_source && count == 0) || (!is_source && network == 65_535 && count > 0) {
        return Err(Fault::BadLength);
    }
    rest.get(usize::from(count)..).ok_or(Fault::Truncated)
}

/// The octets of the APDU in an NPDU; None of a network message.
fn apdu_in(npdu: &[u8]) -> Result<Option<&[u8]>, Fault> {
    let (version, rest) = octet(npdu)?;
    if version != 1 {
        return Err(Fault::Version);
    }
    let (bits, mut rest) = octet(rest)?;
    if bits & 0x50 != 0 {
        return Err(Fault::ReservedBits);
    }
    if bits & 0x20 != 0 {
        rest = after_place(rest, false)?;
    }
    if bits & 0x08 != 0 {
        rest = after_place(rest, true)?;
    }
    if bits & 0x20 != 0 {
        rest = octet(rest)?.1;
    }
    if bits & 0x80 == 0 {
        return Ok(Some(rest));
    }
    let (kind, rest) = octet(rest)?;
    if kind > 127 {
        word(rest)?;
    }
    Ok(None)
}

fn npdu_in(datagram: &[u8]) -> Result<&[u8], Fault> {
    match datagram {
        [kind, ..] if datagram.len() > 3 && *kind != 0x81 => Err(Fault::Version),
        [_, function, ..] if datagram.len() > 3 && *function != 0x0A => Err(Fault::NotUnicast),
        [_, _, high, low, npdu @ ..] if usize::from(u16::from_be_bytes([*high, *low])) == datagram.len() => Ok(npdu),
        [_, _, _, _, ..] => Err(Fault::BadLength),
        _ => Err(Fault::Truncated),
    }
}

fn check_datagram(datagram: &[u8]) -> Result<(), Fault> {
    let Some(octets) = apdu_in(npdu_in(datagram)?)? else {
        return Ok(());
    };
    let is_fine = match read_apdu(octets).map_err(|_| Fault::Apdu)? {
        Apdu::ConfirmedRequest { segment: None, choice: choice @ (6 | 7 | 12 | 15), service, .. } => read_request(choice, service).is_ok(),
        Apdu::ComplexAck { segment: None, choice: choice @ (6 | 7 | 12), service, .. } => read_reply(choice, service).is_ok(),
        _ => true,
    };
    if is_fine { Ok(()) } else { Err(Fault::Service) }
}

/// What each octet stands for as a hexadecimal digit; 255 where it is none.
const VALUES: [u8; 256] = {
    let mut values = [255; 256];
    let mut octet = 0;
    while octet < 256 {
        values[octet] = match octet as u8 {
            digit @ b'0'..=b'9' => digit - b'0',
            letter @ b'a'..=b'f' => letter - b'a' + 10,
            letter @ b'A'..=b'F' => letter - b'A' + 10,
            _ => 255,
        };
        octet += 1;
    }
    values
};

fn read_digits(text: &[u8], octets: &mut Vec<u8>) -> bool {
    octets.clear();
    if text.len() % 2 != 0 {
        return false;
    }
    let mut seen = 0;
    octets.extend(text.chunks_exact(2).map(|pair| {
        let (high, low) = (VALUES[usize::from(pair[0])], VALUES[usize::from(pair[1])]);
        seen |= high | low;
        high << 4 | low & 15
    }));
    seen < 16
}

fn is_link(text: &[u8]) -> bool {
    text.len() == 12 && text.iter().all(u8::is_ascii_hexdigit)
}

/// The moment of a line `moment from to hex`; its datagram takes the place of what `datagram` has.
fn read_line(line: &[u8], datagram: &mut Vec<u8>) -> Option<u64> {
    let mut words = line.splitn(4, |octet| *octet == b' ');
    let (moment, from, to, text) = (words.next()?, words.next()?, words.next()?, words.next()?);
    if !is_link(from) || !is_link(to) || !moment.iter().all(u8::is_ascii_digit) {
        return None;
    }
    let moment = std::str::from_utf8(moment).ok()?.parse().ok()?;
    read_digits(text, datagram).then_some(moment)
}

fn check(line: &[u8], latest: &mut u64, datagram: &mut Vec<u8>) -> Result<(), Fault> {
    if line.len() > LINE_LIMIT {
        return Err(Fault::NoCaptureLine);
    }
    let moment = read_line(line, datagram).ok_or(Fault::NoCaptureLine)?;
    if moment < *latest {
        return Err(Fault::MomentGoesBack);
    }
    *latest = moment;
    check_datagram(datagram)
}

fn main() -> std::io::Result<()> {
    let path = std::env::args().nth(1).expect("a capture");
    let mut input = BufReader::with_capacity(65_536, std::fs::File::open(path)?);
    let (mut line, mut datagram) = (Vec::new(), Vec::new());
    let (mut lines, mut bad, mut latest) = (0u64, 0u64, 0);
    while { line.clear(); input.read_until(b'\n', &mut line)? } > 0 {
        lines += 1;
        let text = line.strip_suffix(b"\n").unwrap_or(&line);
        if let Err(fault) = check(text, &mut latest, &mut datagram) {
            bad += 1;
            println!("line {lines}: {fault:?}");
        }
    }
    println!("lines={lines} good={} bad={bad}", lines - bad);
    Ok(())
}
