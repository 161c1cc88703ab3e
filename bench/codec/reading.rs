//! Reads APDUs and the data of the four services by hand, with the checks of the crates, in their order. For by_hand.rs and ../check_by_hand.rs.

/// What is wrong with a tag, an element or data; the numbers are those of bac_value.
#[derive(Clone, Copy)]
pub enum Kind {
    Truncated = 1,
    ReservedTag,
    LongForm,
    BadLength,
    NotShortest,
    Unbalanced,
    TooDeep,
    ReservedBits,
}

#[derive(Clone, Copy)]
pub enum ApduFault {
    Truncated = 1,
    ReservedBits,
    ReservedCode,
    BadWindow,
    BadType,
    Trailing,
    MorWithoutSeg,
    BadError,
}

/// Why service data are not read.
pub enum Why {
    Fault(Kind),
    Missing,
    Unexpected,
    OutOfRange,
    Inconsistent,
    Surplus,
    UnknownService,
}

/// Why service data are not read, and how many octets were left.
pub struct Stop {
    pub why: Why,
    pub left: usize,
}

#[derive(Clone, Copy)]
pub enum Form {
    Length(usize),
    Boolean(bool),
    Opening,
    Closing,
}

#[derive(Clone, Copy)]
pub struct Tag {
    pub number: u8,
    pub context: bool,
    pub form: Form,
}

#[derive(Clone, Copy)]
pub struct Segment {
    pub more: bool,
    pub number: u8,
    pub window: u8,
}

#[derive(Clone, Copy)]
pub enum Apdu<'a> {
    ConfirmedRequest { max_apdu: u8, takes_segments: bool, max_segments: u8, invoke_id: u8, segment: Option<Segment>, choice: u8, service: &'a [u8] },
    UnconfirmedRequest { choice: u8, service: &'a [u8] },
    SimpleAck { invoke_id: u8, choice: u8 },
    ComplexAck { invoke_id: u8, segment: Option<Segment>, choice: u8, service: &'a [u8] },
    SegmentAck { nak: bool, server: bool, invoke_id: u8, number: u8, window: u8 },
    Error { invoke_id: u8, choice: u8, class: u32, code: u32 },
    Reject { invoke_id: u8, reason: u8 },
    Abort { server: bool, invoke_id: u8, reason: u8 },
}

#[derive(Clone, Copy)]
pub struct Object {
    pub kind: u16,
    pub instance: u32,
}

#[derive(Clone, Copy)]
pub struct Reference {
    pub object: Object,
    pub property: u32,
    pub index: Option<u32>,
}

/// Service data that were read.
#[derive(Clone, Copy)]
pub enum Told<'a> {
    /// Of a segment, of an unconfirmed request, or none.
    Raw,
    ReadFile { file: Object, records: bool, start: i64, count: u64 },
    WriteStream { file: Object, start: i64, content: &'a [u8] },
    WriteRecords { file: Object, start: i64, count: u64, run: &'a [u8] },
    ReadProperty(Reference),
    WriteProperty { reference: Reference, values: &'a [u8], priority: Option<u8> },
    FileRead { end_of_file: bool, start: i64, content: &'a [u8] },
    FileWritten { records: bool, start: i64 },
    PropertyRead { reference: Reference, values: &'a [u8] },
}

/// The octets that are left.
#[derive(Clone, Copy)]
pub struct Reader<'a> {
    pub rest: &'a [u8],
}

impl<'a> Reader<'a> {
    fn octet(&mut self) -> Option<u8> {
        let (first, rest) = self.rest.split_first()?;
        self.rest = rest;
        Some(*first)
    }

    fn take(&mut self, len: usize) -> Option<&'a [u8]> {
        let (front, rest) = self.rest.split_at_checked(len)?;
        self.rest = rest;
        Some(front)
    }

    fn length(&mut self, low: u8) -> Result<usize, Kind> {
        if low < 5 {
            return Ok(low as usize);
        }
        match self.octet().ok_or(Kind::Truncated)? {
            0..=4 => Err(Kind::LongForm),
            254 => {
                let octets = self.take(2).ok_or(Kind::Truncated)?;
                let length = u16::from_be_bytes([octets[0], octets[1]]);
                if length < 254 { Err(Kind::LongForm) } else { Ok(length as usize) }
            }
            255 => {
                let octets = self.take(4).ok_or(Kind::Truncated)?;
                let length = u32::from_be_bytes([octets[0], octets[1], octets[2], octets[3]]);
                if length < 65_536 { Err(Kind::LongForm) } else { Ok(length as usize) }
            }
            length => Ok(length as usize),
        }
    }

    fn tag(&mut self) -> Result<Tag, Kind> {
        let first = self.octet().ok_or(Kind::Truncated)?;
        let (context, low, mut number) = (first & 8 != 0, first & 7, first >> 4);
        if number == 15 {
            number = self.octet().ok_or(Kind::Truncated)?;
            match number {
                0..=14 => return Err(Kind::LongForm),
                255 => return Err(Kind::ReservedTag),
                _ => {}
            }
        }
        let form = if context {
            match low {
                6 => Form::Opening,
                7 => Form::Closing,
                _ => Form::Length(self.length(low)?),
            }
        } else if number > 12 {
            return Err(Kind::ReservedTag);
        } else if number == 1 {
            if low > 1 {
                return Err(Kind::BadLength);
            }
            Form::Boolean(low == 1)
        } else if low > 5 {
            return Err(Kind::BadLength);
        } else {
            Form::Length(self.length(low)?)
        };
        Ok(Tag { number, context, form })
    }

    /// Contents of a kind of application value.
    fn contents(&mut self, kind: u8, len: usize) -> Result<&'a [u8], Kind> {
        let fits = match kind {
            0 | 1 => len == 0,
            2 | 3 => len > 0 && len < 9,
            5 => len == 8,
            6 => true,
            7 | 8 => len > 0,
            9 => len > 0 && len < 5,
            _ => len == 4,
        };
        if !fits {
            return Err(Kind::BadLength);
        }
        let contents = self.take(len).ok_or(Kind::Truncated)?;
        match (kind, contents) {
            (2 | 9, [0, _, ..]) => Err(Kind::NotShortest),
            (3, [0, 0..=127, ..] | [255, 128..=255, ..]) => Err(Kind::NotShortest),
            (8, [unused, bits @ ..]) if !are_bits_fit(*unused, bits) => Err(Kind::ReservedBits),
            _ => Ok(contents),
        }
    }

    fn element(&mut self) -> Result<Tag, Kind> {
        let tag = self.tag()?;
        if let Form::Length(len) = tag.form {
            if tag.context {
                self.take(len).ok_or(Kind::Truncated)?;
            } else {
                self.contents(tag.number, len)?;
            }
        }
        Ok(tag)
    }
}

pub fn are_bits_fit(unused: u8, bits: &[u8]) -> bool {
    match bits.last() {
        None => unused == 0,
        Some(last) => unused < 8 && last % (1 << unused) == 0,
    }
}

pub fn unsigned(octets: &[u8]) -> u64 {
    octets.iter().fold(0, |number, octet| number << 8 | *octet as u64)
}

pub fn signed(octets: &[u8]) -> i64 {
    let first = if octets[0] > 127 { -1 } else { 0 };
    octets.iter().fold(first, |number, octet| number << 8 | *octet as i64)
}

// APDUs

pub fn segment_in(reader: &mut Reader, bits: u8) -> Result<Option<Segment>, ApduFault> {
    if bits & 8 == 0 {
        return Ok(None);
    }
    let number = reader.octet().ok_or(ApduFault::Truncated)?;
    let window = window_in(reader)?;
    Ok(Some(Segment { more: bits & 4 != 0, number, window }))
}

pub fn window_in(reader: &mut Reader) -> Result<u8, ApduFault> {
    match reader.octet().ok_or(ApduFault::Truncated)? {
        0 | 128.. => Err(ApduFault::BadWindow),
        window => Ok(window),
    }
}

pub fn error_member(reader: &mut Reader) -> Result<u32, ApduFault> {
    let fault = |kind| if let Kind::Truncated = kind { ApduFault::Truncated } else { ApduFault::BadError };
    let whole = *reader;
    let tag = reader.tag().map_err(fault)?;
    match tag {
        Tag { number: 9, context: false, form: Form::Length(len) } => Ok(unsigned(reader.contents(9, len).map_err(fault)?) as u32),
        _ => match { whole }.element() {
            Ok(_) => Err(ApduFault::BadError),
            Err(kind) => Err(fault(kind)),
        },
    }
}

pub fn read_apdu(octets: &[u8]) -> Result<Apdu<'_>, ApduFault> {
    let mut reader = Reader { rest: octets };
    let first = reader.octet().ok_or(ApduFault::Truncated)?;
    let (kind, bits) = (first >> 4, first & 15);
    let reserved = match kind {
        0 => bits & 1,
        3 => bits & 3,
        4 => bits >> 2,
        7 => bits >> 1,
        8.. => return Err(ApduFault::BadType),
        _ => bits,
    };
    if reserved != 0 {
        return Err(ApduFault::ReservedBits);
    }
    if (kind == 0 || kind == 3) && bits & 12 == 4 {
        return Err(ApduFault::MorWithoutSeg);
    }
    let octet = |reader: &mut Reader| reader.octet().ok_or(ApduFault::Truncated);
    let apdu = match kind {
        0 => {
            let codes = octet(&mut reader)?;
            if codes > 127 {
                return Err(ApduFault::ReservedBits);
            }
            if codes & 15 > 5 {
                return Err(ApduFault::ReservedCode);
            }
            let invoke_id = octet(&mut reader)?;
            let segment = segment_in(&mut reader, bits)?;
            let choice = octet(&mut reader)?;
            let (max_apdu, takes_segments, max_segments) = (codes & 15, bits & 2 != 0, codes >> 4);
            return Ok(Apdu::ConfirmedRequest { max_apdu, takes_segments, max_segments, invoke_id, segment, choice, service: reader.rest });
        }
        1 => {
            let choice = octet(&mut reader)?;
            return Ok(Apdu::UnconfirmedRequest { choice, service: reader.rest });
        }
        3 => {
            let invoke_id = octet(&mut reader)?;
            let segment = segment_in(&mut reader, bits)?;
            let choice = octet(&mut reader)?;
            return Ok(Apdu::ComplexAck { invoke_id, segment, choice, service: reader.rest });
        }
        2 => Apdu::SimpleAck { invoke_id: octet(&mut reader)?, choice: octet(&mut reader)? },
        4 => {
            let (invoke_id, number) = (octet(&mut reader)?, octet(&mut reader)?);
            Apdu::SegmentAck { nak: bits & 2 != 0, server: bits & 1 != 0, invoke_id, number, window: window_in(&mut reader)? }
        }
        5 => {
            let (invoke_id, choice) = (octet(&mut reader)?, octet(&mut reader)?);
            let class = error_member(&mut reader)?;
            Apdu::Error { invoke_id, choice, class, code: error_member(&mut reader)? }
        }
        6 => Apdu::Reject { invoke_id: octet(&mut reader)?, reason: octet(&mut reader)? },
        _ => Apdu::Abort { server: bits & 1 != 0, invoke_id: octet(&mut reader)?, reason: octet(&mut reader)? },
    };
    if reader.rest.is_empty() { Ok(apdu) } else { Err(ApduFault::Trailing) }
}

// Service data

pub fn stop<T>(why: Why, left: usize) -> Result<T, Stop> {
    Err(Stop { why, left })
}

impl<'a> Reader<'a> {
    fn next_tag(&mut self) -> Result<Tag, Stop> {
        let left = self.rest.len();
        if left == 0 {
            return stop(Why::Missing, 0);
        }
        self.tag().map_err(|kind| Stop { why: Why::Fault(kind), left })
    }

    /// The contents of a kind after a tag of that class and number.
    fn member(&mut self, context: bool, number: u8, kind: u8) -> Result<&'a [u8], Stop> {
        let left = self.rest.len();
        match self.next_tag()? {
            Tag { number: n, context: c, form: Form::Length(len) } if n == number && c == context => {
                self.contents(kind, len).map_err(|kind| Stop { why: Why::Fault(kind), left })
            }
            _ => stop(Why::Unexpected, left),
        }
    }

    fn object(&mut self, context: bool, number: u8) -> Result<Object, Stop> {
        let number = unsigned(self.member(context, number, 12)?) as u32;
        Ok(Object { kind: (number >> 22) as u16, instance: number & 0x3F_FFFF })
    }

    /// Whether the next tag is that of an optional member.
    fn comes_next(self, number: u8) -> Result<bool, Stop> {
        if self.rest.is_empty() {
            return Ok(false);
        }
        let tag = { self }.next_tag()?;
        Ok(tag.context && tag.number == number && matches!(tag.form, Form::Length(_)))
    }

    fn opens_next(self, number: u8) -> Result<bool, Stop> {
        let tag = { self }.next_tag()?;
        Ok(tag.number == number && matches!(tag.form, Form::Opening))
    }

    fn opening(&mut self, number: u8) -> Result<(), Stop> {
        if self.opens_next(number)? {
            let _ = self.next_tag();
            Ok(())
        } else {
            stop(Why::Unexpected, self.rest.len())
        }
    }

    fn closing(&mut self, number: u8) -> Result<(), Stop> {
        let left = self.rest.len();
        match self.next_tag()? {
            Tag { number: n, form: Form::Closing, .. } if n == number => Ok(()),
            _ => stop(Why::Unexpected, left),
        }
    }

    fn reference(&mut self) -> Result<Reference, Stop> {
        let object = self.object(true, 0)?;
        let property = unsigned(self.member(true, 1, 9)?) as u32;
        let index = if self.comes_next(2)? { Some(unsigned(self.member(true, 2, 9)?) as u32) } else { None };
        Ok(Reference { object, property, index })
    }

    fn extent(&mut self, number: u8) -> Result<(i64, u64), Stop> {
        self.opening(number)?;
        let start = signed(self.member(false, 3, 3)?);
        let count = unsigned(self.member(false, 2, 2)?);
        self.closing(number)?;
        Ok((start, count))
    }

    fn content(&mut self) -> Result<(i64, &'a [u8]), Stop> {
        self.opening(0)?;
        let start = signed(self.member(false, 3, 3)?);
        let content = self.member(false, 6, 6)?;
        self.closing(0)?;
        Ok((start, content))
    }

    /// Data up to their end or to a closing tag whose opening tag is not among them.
    fn values(&mut self) -> Result<&'a [u8], Stop> {
        let all = self.rest;
        let (mut opened, mut depth) = ([0u8; 8], 0);
        while !self.rest.is_empty() {
            let here = self.rest;
            let fault = |kind| Stop { why: Why::Fault(kind), left: here.len() };
            let tag = self.element().map_err(fault)?;
            match tag.form {
                Form::Opening if depth == 8 => return Err(fault(Kind::TooDeep)),
                Form::Opening => {
                    opened[depth] = tag.number;
                    depth += 1;
                }
                Form::Closing if depth == 0 => {
                    self.rest = here;
                    return Ok(&all[..all.len() - here.len()]);
                }
                Form::Closing if opened[depth - 1] != tag.number => return Err(fault(Kind::Unbalanced)),
                Form::Closing => depth -= 1,
                _ => {}
            }
        }
        if depth == 0 { Ok(all) } else { stop(Why::Fault(Kind::Truncated), 0) }
    }

    fn enclosed_values(&mut self) -> Result<&'a [u8], Stop> {
        self.opening(3)?;
        let values = self.values()?;
        self.closing(3)?;
        Ok(values)
    }

    fn priority(&mut self) -> Result<Option<u8>, Stop> {
        if !self.comes_next(4)? {
            return Ok(None);
        }
        let left = self.rest.len();
        match unsigned(self.member(true, 4, 2)?) {
            number @ 1..=16 => Ok(Some(number as u8)),
            _ => stop(Why::OutOfRange, left),
        }
    }

    /// Octet strings one after the other.
    fn run(&mut self) -> Result<(u64, &'a [u8]), Stop> {
        let (all, mut count) = (self.rest, 0);
        loop {
            match { *self }.next_tag()? {
                Tag { number: 6, context: false, form: Form::Length(_) } => {
                    self.member(false, 6, 6)?;
                    count += 1;
                }
                _ => return Ok((count, &all[..all.len() - self.rest.len()])),
            }
        }
    }

    fn write_access(&mut self, file: Object) -> Result<Told<'a>, Stop> {
        if !self.opens_next(1)? {
            let (start, content) = self.content()?;
            return Ok(Told::WriteStream { file, start, content });
        }
        let left = self.rest.len();
        self.opening(1)?;
        let start = signed(self.member(false, 3, 3)?);
        let count = unsigned(self.member(false, 2, 2)?);
        let (strings, run) = self.run()?;
        self.closing(1)?;
        if strings == count { Ok(Told::WriteRecords { file, start, count, run }) } else { stop(Why::Inconsistent, left) }
    }

    fn whole(self, told: Told<'a>) -> Result<Told<'a>, Stop> {
        if self.rest.is_empty() { Ok(told) } else { stop(Why::Surplus, self.rest.len()) }
    }
}

pub fn read_request(choice: u8, octets: &[u8]) -> Result<Told<'_>, Stop> {
    let mut reader = Reader { rest: octets };
    let told = match choice {
        6 => {
            let file = reader.object(false, 12)?;
            let records = reader.opens_next(1)?;
            let (start, count) = reader.extent(records as u8)?;
            Told::ReadFile { file, records, start, count }
        }
        7 => {
            let file = reader.object(false, 12)?;
            reader.write_access(file)?
        }
        12 => Told::ReadProperty(reader.reference()?),
        15 => Told::WriteProperty { reference: reader.reference()?, values: reader.enclosed_values()?, priority: reader.priority()? },
        _ => return stop(Why::UnknownService, 0),
    };
    reader.whole(told)
}

pub fn read_reply(choice: u8, octets: &[u8]) -> Result<Told<'_>, Stop> {
    let mut reader = Reader { rest: octets };
    let told = match choice {
        6 => {
            let left = reader.rest.len();
            let Form::Boolean(end_of_file) = reader.next_tag()?.form else {
                return stop(Why::Unexpected, left);
            };
            let (start, content) = reader.content()?;
            Told::FileRead { end_of_file, start, content }
        }
        7 => {
            let records = reader.comes_next(1)?;
            Told::FileWritten { records, start: signed(reader.member(true, records as u8, 3)?) }
        }
        12 => Told::PropertyRead { reference: reader.reference()?, values: reader.enclosed_values()? },
        _ => return stop(Why::Unexpected, octets.len()),
    };
    reader.whole(told)
}

/// The reason for rejecting a request (clause 18.9).
pub fn reason(stop: Stop) -> u64 {
    match stop.why {
        Why::Fault(Kind::Truncated) | Why::Missing => 5,
        Why::Fault(Kind::ReservedTag | Kind::Unbalanced | Kind::TooDeep) | Why::Unexpected => 4,
        Why::Fault(_) => 3,
        Why::OutOfRange => 6,
        Why::Inconsistent => 2,
        Why::Surplus => 7,
        Why::UnknownService => 9,
    }
}

/// The number and the place of a fault in service data of a reply.
pub fn fault(stop: Stop, all: usize) -> u64 {
    let kind = match stop.why {
        Why::Fault(kind) => kind,
        Why::Missing | Why::Unexpected => Kind::ReservedTag,
        _ => Kind::BadLength,
    };
    kind as u64 * 65_536 + (all - stop.left) as u64
}
