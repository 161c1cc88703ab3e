//! APDUs and service data as octets, for by_hand.rs.
use super::*;

fn put_tag(number: u8, context: bool, len: usize, out: &mut Vec<u8>) {
    let first = number << 4 | (context as u8) << 3;
    if len < 5 {
        out.push(first | len as u8);
    } else if len < 254 {
        out.extend_from_slice(&[first | 5, len as u8]);
    } else if len < 65_536 {
        out.extend_from_slice(&[first | 5, 254]);
        out.extend_from_slice(&(len as u16).to_be_bytes());
    } else {
        out.extend_from_slice(&[first | 5, 255]);
        out.extend_from_slice(&(len as u32).to_be_bytes());
    }
}

fn put_contents(number: u8, context: bool, contents: &[u8], out: &mut Vec<u8>) {
    put_tag(number, context, contents.len(), out);
    out.extend_from_slice(contents);
}

fn put_unsigned(number: u8, context: bool, value: u64, out: &mut Vec<u8>) {
    let len = (8 - value.leading_zeros() as usize / 8).max(1);
    put_contents(number, context, &value.to_be_bytes()[8 - len..], out);
}

fn put_signed(number: u8, context: bool, value: i64, out: &mut Vec<u8>) {
    let distance = if value < 0 { !value } else { value };
    let len = 8 - (distance.leading_zeros() as usize - 1) / 8;
    put_contents(number, context, &value.to_be_bytes()[8 - len..], out);
}

fn put_object(number: u8, context: bool, object: Object, out: &mut Vec<u8>) {
    put_contents(number, context, &((object.kind as u32) << 22 | object.instance).to_be_bytes(), out);
}

fn put_reference(reference: Reference, out: &mut Vec<u8>) {
    put_object(0, true, reference.object, out);
    put_unsigned(1, true, reference.property as u64, out);
    if let Some(index) = reference.index {
        put_unsigned(2, true, index as u64, out);
    }
}

fn put_enclosed(number: u8, out: &mut Vec<u8>, inside: impl FnOnce(&mut Vec<u8>)) {
    out.push(number << 4 | 0x0E);
    inside(out);
    out.push(number << 4 | 0x0F);
}

fn put_content(start: i64, content: &[u8], out: &mut Vec<u8>) {
    put_enclosed(0, out, |out| {
        put_signed(3, false, start, out);
        put_contents(6, false, content, out);
    });
}

pub fn put_told(told: &Told, out: &mut Vec<u8>) {
    match *told {
        Told::Raw => {}
        Told::ReadFile { file, records, start, count } => {
            put_object(12, false, file, out);
            put_enclosed(records as u8, out, |out| {
                put_signed(3, false, start, out);
                put_unsigned(2, false, count, out);
            });
        }
        Told::WriteStream { file, start, content } => {
            put_object(12, false, file, out);
            put_content(start, content, out);
        }
        Told::WriteRecords { file, start, count, run } => {
            put_object(12, false, file, out);
            put_enclosed(1, out, |out| {
                put_signed(3, false, start, out);
                put_unsigned(2, false, count, out);
                out.extend_from_slice(run);
            });
        }
        Told::ReadProperty(reference) => put_reference(reference, out),
        Told::WriteProperty { reference, values, priority } => {
            put_reference(reference, out);
            put_enclosed(3, out, |out| out.extend_from_slice(values));
            if let Some(priority) = priority {
                put_unsigned(4, true, priority as u64, out);
            }
        }
        Told::FileRead { end_of_file, start, content } => {
            out.push(0x10 | end_of_file as u8);
            put_content(start, content, out);
        }
        Told::FileWritten { records, start } => put_signed(records as u8, true, start, out),
        Told::PropertyRead { reference, values } => {
            put_reference(reference, out);
            put_enclosed(3, out, |out| out.extend_from_slice(values));
        }
    }
}

fn contents_len(len: usize) -> usize {
    len + if len < 5 { 1 } else if len < 254 { 2 } else if len < 65_536 { 4 } else { 6 }
}

fn unsigned_len(value: u64) -> usize {
    contents_len((8 - value.leading_zeros() as usize / 8).max(1))
}

fn signed_len(value: i64) -> usize {
    let distance = if value < 0 { !value } else { value };
    contents_len(8 - (distance.leading_zeros() as usize - 1) / 8)
}

fn reference_len(reference: Reference) -> usize {
    5 + unsigned_len(reference.property as u64) + reference.index.map_or(0, |index| unsigned_len(index as u64))
}

fn content_len(start: i64, content: &[u8]) -> usize {
    2 + signed_len(start) + contents_len(content.len())
}

/// How many octets it is written in.
pub fn told_len(told: &Told) -> usize {
    match *told {
        Told::Raw => 0,
        Told::ReadFile { start, count, .. } => 5 + 2 + signed_len(start) + unsigned_len(count),
        Told::WriteStream { start, content, .. } => 5 + content_len(start, content),
        Told::WriteRecords { start, count, run, .. } => 5 + 2 + signed_len(start) + unsigned_len(count) + run.len(),
        Told::ReadProperty(reference) => reference_len(reference),
        Told::WriteProperty { reference, values, priority } => {
            reference_len(reference) + 2 + values.len() + priority.map_or(0, |priority| unsigned_len(priority as u64))
        }
        Told::FileRead { start, content, .. } => 1 + content_len(start, content),
        Told::FileWritten { start, .. } => signed_len(start),
        Told::PropertyRead { reference, values } => reference_len(reference) + 2 + values.len(),
    }
}

fn segment_bits(segment: Option<Segment>) -> u8 {
    match segment {
        None => 0,
        Some(segment) => 8 | (segment.more as u8) << 2,
    }
}

pub fn put_apdu(apdu: &Apdu, out: &mut Vec<u8>) {
    match *apdu {
        Apdu::ConfirmedRequest { max_apdu, takes_segments, max_segments, invoke_id, segment, choice, service } => {
            out.extend_from_slice(&[segment_bits(segment) | (takes_segments as u8) << 1, max_segments << 4 | max_apdu, invoke_id]);
            if let Some(segment) = segment {
                out.extend_from_slice(&[segment.number, segment.window]);
            }
            out.push(choice);
            out.extend_from_slice(service);
        }
        Apdu::UnconfirmedRequest { choice, service } => {
            out.extend_from_slice(&[0x10, choice]);
            out.extend_from_slice(service);
        }
        Apdu::SimpleAck { invoke_id, choice } => out.extend_from_slice(&[0x20, invoke_id, choice]),
        Apdu::ComplexAck { invoke_id, segment, choice, service } => {
            out.extend_from_slice(&[0x30 | segment_bits(segment), invoke_id]);
            if let Some(segment) = segment {
                out.extend_from_slice(&[segment.number, segment.window]);
            }
            out.push(choice);
            out.extend_from_slice(service);
        }
        Apdu::SegmentAck { nak, server, invoke_id, number, window } => {
            out.extend_from_slice(&[0x40 | (nak as u8) << 1 | server as u8, invoke_id, number, window]);
        }
        Apdu::Error { invoke_id, choice, class, code } => {
            out.extend_from_slice(&[0x50, invoke_id, choice]);
            put_unsigned(9, false, class as u64, out);
            put_unsigned(9, false, code as u64, out);
        }
        Apdu::Reject { invoke_id, reason } => out.extend_from_slice(&[0x60, invoke_id, reason]),
        Apdu::Abort { server, invoke_id, reason } => out.extend_from_slice(&[0x70 | server as u8, invoke_id, reason]),
    }
}
