//! Scripts.

use memchr::memchr;
use peer::layout::{BATCH_MAX, EVENT_SIZE};
use peer::machine::CLOCK_MAX;
use peer::packet::Packet;

const LINE_MAX: usize = 65_536;

const DIGITS_MAX: usize = 39;

/// So many decimal digits fit into 64 bits.
const SHORT_DIGITS: usize = 19;

const SUBMITTERS: u32 = 2;

#[derive(Clone, Copy, Debug, PartialEq, Eq)]
pub enum Fault {
    LineTooLong,
    BadByte,
    UnknownWord,
    OutOfPlace,
    WrongNumberOfWords,
    BadField,
    BadNumber,
    BadHex,
}

#[derive(Debug)]
pub enum Item {
    Packet(Packet),
    Pulse(u64),
    Shut,
}

#[derive(Debug, Default)]
pub struct Script {
    clock: Option<u64>,
    limit: Option<u32>,
    capacity: Option<u32>,
    credit: Option<u32>,
    submitters: Option<u32>,
    pub items: Vec<Item>,
    is_shut: bool,
}

/// Where the number of a field stands in an event, and how many bytes it has.
#[derive(Clone, Copy)]
struct Field {
    offset: usize,
    size: usize,
}

impl Fault {
    pub fn text(self) -> &'static str {
        match self {
            Fault::LineTooLong => "line too long",
            Fault::BadByte => "bad byte",
            Fault::UnknownWord => "unknown word",
            Fault::OutOfPlace => "out of place",
            Fault::WrongNumberOfWords => "wrong number of words",
            Fault::BadField => "bad field",
            Fault::BadNumber => "bad number",
            Fault::BadHex => "bad hex",
        }
    }
}

const fn field(offset: usize, size: usize) -> Option<Field> {
    Some(Field { offset, size })
}

fn account_field(name: &[u8]) -> Option<Field> {
    match name {
        b"id" => field(0, 16),
        b"debits_pending" => field(16, 16),
        b"debits_posted" => field(32, 16),
        b"credits_pending" => field(48, 16),
        b"credits_posted" => field(64, 16),
        b"user_data_128" => field(80, 16),
        b"user_data_64" => field(96, 8),
        b"user_data_32" => field(104, 4),
        b"reserved" => field(108, 4),
        b"ledger" => field(112, 4),
        b"code" => field(116, 2),
        b"flags" => field(118, 2),
        b"timestamp" => field(120, 8),
        _ => None,
    }
}

fn transfer_field(name: &[u8]) -> Option<Field> {
    match name {
        b"id" => field(0, 16),
        b"debit_account_id" => field(16, 16),
        b"credit_account_id" => field(32, 16),
        b"amount" => field(48, 16),
        b"pending_id" => field(64, 16),
        b"user_data_128" => field(80, 16),
        b"user_data_64" => field(96, 8),
        b"user_data_32" => field(104, 4),
        b"timeout" => field(108, 4),
        b"ledger" => field(112, 4),
        b"code" => field(116, 2),
        b"flags" => field(118, 2),
        b"timestamp" => field(120, 8),
        _ => None,
    }
}

fn digit(byte: u8) -> Option<u8> {
    let digit = byte.wrapping_sub(b'0');
    (digit <= 9).then_some(digit)
}

/// The number in 1 to 39 decimal digits.
fn number(word: &[u8]) -> Option<u128> {
    if word.is_empty() || word.len() > DIGITS_MAX {
        return None;
    }
    let (front, back) = word.split_at(word.len().min(SHORT_DIGITS));
    let short = front.iter().try_fold(0_u64, |number, byte| {
        Some(number * 10 + u64::from(digit(*byte)?))
    })?;
    back.iter().try_fold(u128::from(short), |number, byte| {
        number
            .checked_mul(10)?
            .checked_add(u128::from(digit(*byte)?))
    })
}

fn number_within(word: &[u8], low: u128, high: u128) -> Result<u128, Fault> {
    number(word)
        .filter(|number| (low..=high).contains(number))
        .ok_or(Fault::BadNumber)
}

fn hex_digit(byte: u8) -> Result<u8, Fault> {
    match byte {
        b'0'..=b'9' => Ok(byte - b'0'),
        b'a'..=b'f' => Ok(byte - b'a' + 10),
        b'A'..=b'F' => Ok(byte - b'A' + 10),
        _ => Err(Fault::BadHex),
    }
}

fn put_hex(bytes: &mut Vec<u8>, digits: &[u8]) -> Result<(), Fault> {
    let (pairs, left) = digits.as_chunks::<2>();
    if !left.is_empty() {
        return Err(Fault::BadHex);
    }
    for [high, low] in pairs {
        bytes.push(hex_digit(*high)? << 4 | hex_digit(*low)?);
    }
    Ok(())
}

fn put_field(event: &mut [u8; EVENT_SIZE], field: Field, number: u128) -> Option<()> {
    let place = &mut event[field.offset..];
    match field.size {
        2 => *place.first_chunk_mut()? = u16::try_from(number).ok()?.to_le_bytes(),
        4 => *place.first_chunk_mut()? = u32::try_from(number).ok()?.to_le_bytes(),
        8 => *place.first_chunk_mut()? = u64::try_from(number).ok()?.to_le_bytes(),
        _ => *place.first_chunk_mut()? = number.to_le_bytes(),
    }
    Some(())
}

fn event<'a>(
    words: impl Iterator<Item = &'a [u8]>,
    field_of: impl Fn(&[u8]) -> Option<Field>,
) -> Result<[u8; EVENT_SIZE], Fault> {
    let mut event = [0; EVENT_SIZE];
    // A bit for each even offset at which a field was given.
    let mut given: u64 = 0;
    for word in words {
        let equals = word
            .iter()
            .position(|byte| *byte == b'=')
            .ok_or(Fault::BadField)?;
        let field = field_of(&word[..equals]).ok_or(Fault::BadField)?;
        let bit = 1 << (field.offset / 2);
        if given & bit != 0 {
            return Err(Fault::BadField);
        }
        given |= bit;
        let number = number(&word[equals + 1..]).ok_or(Fault::BadNumber)?;
        put_field(&mut event, field, number).ok_or(Fault::BadNumber)?;
    }
    Ok(event)
}

/// The words of a line that has just so many.
fn exactly<'a, const N: usize>(
    mut words: impl Iterator<Item = &'a [u8]>,
) -> Result<[&'a [u8]; N], Fault> {
    let mut taken = [&[][..]; N];
    for word in &mut taken {
        *word = words.next().ok_or(Fault::WrongNumberOfWords)?;
    }
    match words.next() {
        None => Ok(taken),
        Some(_) => Err(Fault::WrongNumberOfWords),
    }
}

fn set<'a, T: TryFrom<u128>>(
    setting: &mut Option<T>,
    in_place: bool,
    words: impl Iterator<Item = &'a [u8]>,
    low: u128,
    high: u128,
) -> Result<(), Fault> {
    if !in_place || setting.is_some() {
        return Err(Fault::OutOfPlace);
    }
    let [word] = exactly(words)?;
    *setting = number_within(word, low, high)?.try_into().ok();
    Ok(())
}

/// Whether all bytes are printable. Without a way out of the loop it looks at many bytes at once.
fn is_text(line: &[u8]) -> bool {
    line.iter()
        .fold(true, |text, byte| text & (32..=126).contains(byte))
}

impl Script {
    /// What a text says, or the number of its first faulty line, counted from 1, and its fault.
    pub fn parse(text: &[u8]) -> Result<Script, (usize, Fault)> {
        let mut script = Script::default();
        let mut rest = text;
        let mut number = 0;
        while !rest.is_empty() {
            let end = memchr(b'\n', rest).unwrap_or(rest.len());
            let (line, after) = rest.split_at(end);
            number += 1;
            script.line(line).map_err(|fault| (number, fault))?;
            rest = after.get(1..).unwrap_or_default();
        }
        Ok(script)
    }

    pub fn clock(&self) -> u64 {
        self.clock.unwrap_or(0)
    }

    pub fn limit(&self) -> u32 {
        self.limit.unwrap_or(BATCH_MAX)
    }

    fn line(&mut self, line: &[u8]) -> Result<(), Fault> {
        if line.len() > LINE_MAX {
            return Err(Fault::LineTooLong);
        }
        if !is_text(line) {
            return Err(Fault::BadByte);
        }
        let mut words = line
            .split(|byte| *byte == b' ')
            .filter(|word| !word.is_empty());
        match words.next() {
            None | Some([b'#', ..]) => Ok(()),
            Some(word) => self.statement(word, words),
        }
    }

    fn statement<'a>(
        &mut self,
        word: &[u8],
        words: impl Iterator<Item = &'a [u8]>,
    ) -> Result<(), Fault> {
        match word {
            b"transfer" => self.event(words, transfer_field),
            b"account" => self.event(words, account_field),
            b"id" => self.id(words),
            b"hex" => self.hex(words),
            b"packet" => self.begin_packet(words),
            b"pulse" => self.pulse(words),
            b"shut" => self.shut(words),
            setting => self.set(setting, words),
        }
    }

    /// The data of the packet that the lines before have begun.
    fn bytes(&mut self) -> Result<&mut Vec<u8>, Fault> {
        match self.items.last_mut() {
            Some(Item::Packet(packet)) => Ok(&mut packet.bytes),
            _ => Err(Fault::OutOfPlace),
        }
    }

    fn event<'a>(
        &mut self,
        words: impl Iterator<Item = &'a [u8]>,
        field_of: impl Fn(&[u8]) -> Option<Field>,
    ) -> Result<(), Fault> {
        let bytes = self.bytes()?;
        bytes.extend_from_slice(&event(words, field_of)?);
        Ok(())
    }

    fn id<'a>(&mut self, words: impl Iterator<Item = &'a [u8]>) -> Result<(), Fault> {
        let bytes = self.bytes()?;
        let [word] = exactly(words)?;
        let id = number_within(word, 0, u128::MAX)?;
        bytes.extend_from_slice(&id.to_le_bytes());
        Ok(())
    }

    fn hex<'a>(&mut self, words: impl Iterator<Item = &'a [u8]>) -> Result<(), Fault> {
        let bytes = self.bytes()?;
        let [digits] = exactly(words)?;
        put_hex(bytes, digits)
    }

    fn begin_packet<'a>(&mut self, words: impl Iterator<Item = &'a [u8]>) -> Result<(), Fault> {
        let [submitter, operation] = exactly(words)?;
        let submitters = self.submitters.unwrap_or(SUBMITTERS);
        self.items.push(Item::Packet(Packet {
            submitter: number_within(submitter, 0, u128::from(submitters) - 1)? as u32,
            operation: number_within(operation, 0, 255)? as u8,
            bytes: Vec::new(),
        }));
        Ok(())
    }

    fn pulse<'a>(&mut self, words: impl Iterator<Item = &'a [u8]>) -> Result<(), Fault> {
        if self.is_shut {
            return Err(Fault::OutOfPlace);
        }
        let [moment] = exactly(words)?;
        let moment = number_within(moment, 0, u128::from(u64::MAX))?;
        self.items.push(Item::Pulse(moment as u64));
        Ok(())
    }

    fn shut<'a>(&mut self, words: impl Iterator<Item = &'a [u8]>) -> Result<(), Fault> {
        if self.is_shut {
            return Err(Fault::OutOfPlace);
        }
        let [] = exactly(words)?;
        self.is_shut = true;
        self.items.push(Item::Shut);
        Ok(())
    }

    fn set<'a>(&mut self, word: &[u8], words: impl Iterator<Item = &'a [u8]>) -> Result<(), Fault> {
        let in_place = self.items.is_empty();
        let limit = u128::from(BATCH_MAX);
        match word {
            b"clock" => set(&mut self.clock, in_place, words, 0, u128::from(CLOCK_MAX)),
            b"limit" => set(&mut self.limit, in_place, words, 1, limit),
            b"capacity" => set(&mut self.capacity, in_place, words, 1, 65_536),
            b"credit" => set(&mut self.credit, in_place, words, 1, 65_536),
            b"submitters" => set(&mut self.submitters, in_place, words, 1, 16),
            _ => Err(Fault::UnknownWord),
        }
    }
}
