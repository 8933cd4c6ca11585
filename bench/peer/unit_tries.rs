//! Unit tries: a cursor that reads a key unit by unit, and the entries in unit order.
use crate::{mixed, slice};

// A lead unit below 0x30 is a branch, one below 0x40 a run of units (linear match). From 0x40 on it
// has a value: if bit 15 is set, the value ends the key; otherwise it is in bits 6 to 14, and the
// node's kind in the bits below.
const RUN: u16 = 0x30;
const VALUE: u16 = 0x40;
const KIND: u16 = 0x3F;
const FINAL: u16 = 0x8000;

// A branch of at most this many entries is a list, and a larger one a choice between two halves.
const LIST: usize = 5;

#[derive(Clone)]
struct Cursor<'a> {
    units: &'a [[u8; 2]],
    /// The position of the next unit to read, if one can match.
    place: Option<usize>,
    /// The number of units left in a run, minus one.
    left: Option<u8>,
}

/// Returns the position after a number, by the number's lead unit.
fn past(place: usize, lead: u16, two: u16, three: u16) -> usize {
    place + (lead >= two) as usize + (lead >= three) as usize
}

impl<'a> Cursor<'a> {
    fn new(units: &'a [[u8; 2]]) -> Self {
        Cursor { units, place: Some(0), left: None }
    }

    #[inline(always)]
    fn unit(&self, place: usize) -> Option<u16> {
        self.units.get(place).map(|unit| u16::from_le_bytes(*unit))
    }

    /// Returns the number in two units.
    #[inline(always)]
    fn pair(&self, place: usize) -> Option<usize> {
        Some((self.unit(place)? as usize) << 16 | self.unit(place + 1)? as usize)
    }

    fn past_node_value(place: usize, lead: u16) -> usize {
        past(place, lead, 0x4040, 0x7FC0)
    }

    #[inline(always)]
    fn past_value(&self, place: usize) -> Option<usize> {
        Some(past(place + 1, self.unit(place)? & !FINAL, 0x4000, 0x7FFF))
    }

    #[inline(always)]
    fn past_delta(&self, place: usize) -> Option<usize> {
        Some(match self.unit(place)? {
            ..0xFC00 => place + 1,
            0xFFFF => place + 3,
            _ => place + 2,
        })
    }

    /// Returns the position of the lower half of a branch.
    #[inline(always)]
    fn lower_half(&self, place: usize) -> Option<usize> {
        Some(match self.unit(place)? {
            delta @ ..0xFC00 => place + 1 + delta as usize,
            0xFFFF => place + 3 + self.pair(place + 1)?,
            delta => place + 2 + ((delta as usize - 0xFC00) << 16 | self.unit(place + 1)? as usize),
        })
    }

    /// Returns where an entry of a list goes on, by the number at `place`: at `place` itself if the
    /// number is a value, otherwise at the target of the jump.
    #[inline(always)]
    fn jumped(&self, place: usize) -> Option<usize> {
        Some(match self.unit(place)? {
            FINAL.. => place,
            lead @ ..0x4000 => place + 1 + lead as usize,
            0x7FFF => place + 3 + self.pair(place + 1)?,
            lead => place + 2 + ((lead as usize - 0x4000) << 16 | self.unit(place + 1)? as usize),
        })
    }

    #[inline]
    fn step16(&mut self, unit: u16) {
        let Some(place) = self.place else {
            return;
        };
        self.place = match self.left {
            Some(left) if self.unit(place) == Some(unit) => {
                self.left = left.checked_sub(1);
                Some(place + 1)
            }
            Some(_) => None,
            None => self.step_node(place, unit),
        };
    }

    fn step_node(&mut self, place: usize, unit: u16) -> Option<usize> {
        let mut lead = self.unit(place)?;
        let mut place = place + 1;
        if lead >= VALUE {
            if lead & FINAL != 0 {
                return None;
            }
            place = Self::past_node_value(place, lead);
            lead &= KIND;
        }
        if lead < RUN {
            return self.step_branch(place, lead as usize, unit);
        }
        if self.unit(place)? != unit {
            return None;
        }
        self.left = ((lead - RUN) as u8).checked_sub(1);
        Some(place + 1)
    }

    fn step_branch(&self, mut place: usize, length: usize, unit: u16) -> Option<usize> {
        let mut length = length;
        if length == 0 {
            length = self.unit(place)? as usize;
            place += 1;
        }
        length += 1;
        while length > LIST {
            if unit < self.unit(place)? {
                length /= 2;
                place = self.lower_half(place + 1)?;
            } else {
                length -= length / 2;
                place = self.past_delta(place + 1)?;
            }
        }
        while length > 1 {
            if self.unit(place)? == unit {
                return self.jumped(place + 1);
            }
            length -= 1;
            place = self.past_value(place + 1)?;
        }
        (self.unit(place)? == unit).then_some(place + 1)
    }

    #[inline]
    fn value(&self) -> Option<i32> {
        if self.left.is_some() {
            return None;
        }
        let place = self.place?;
        match self.unit(place)? {
            ..VALUE => None,
            lead @ FINAL.. => Some(self.final_value(place + 1, lead & !FINAL).unwrap_or(0)),
            lead => Some(self.node_value(place + 1, lead).unwrap_or(0)),
        }
    }

    #[inline(always)]
    fn final_value(&self, place: usize, lead: u16) -> Option<i32> {
        Some(match lead {
            ..0x4000 => lead as i32,
            0x7FFF => self.pair(place)? as i32,
            _ => (lead as i32 - 0x4000) << 16 | self.unit(place)? as i32,
        })
    }

    #[inline(always)]
    fn node_value(&self, place: usize, lead: u16) -> Option<i32> {
        Some(match lead {
            ..0x4040 => (lead >> 6) as i32 - 1,
            0x7FC0.. => self.pair(place)? as i32,
            _ => ((lead & 0x7FC0) as i32 - 0x4040) << 10 | self.unit(place)? as i32,
        })
    }

    /// Steps by unit number `nth` of the units that can come next, and returns that unit.
    fn step_nth(&mut self, nth: usize) -> Option<u16> {
        let mut place = self.place?;
        if let Some(left) = self.left {
            return self.step_run(place, left as u16, nth);
        }
        let mut lead = self.unit(place)?;
        place += 1;
        if lead >= VALUE {
            if lead & FINAL != 0 {
                return None;
            }
            place = Self::past_node_value(place, lead);
            lead &= KIND;
        }
        if lead >= RUN {
            return self.step_run(place, lead - RUN, nth);
        }
        self.step_nth_of_branch(place, lead as usize, nth)
    }

    fn step_run(&mut self, place: usize, left: u16, nth: usize) -> Option<u16> {
        if nth > 0 {
            return None;
        }
        let unit = self.unit(place)?;
        self.left = (left as u8).checked_sub(1);
        self.place = Some(place + 1);
        Some(unit)
    }

    fn step_nth_of_branch(
        &mut self,
        mut place: usize,
        length: usize,
        mut nth: usize,
    ) -> Option<u16> {
        let mut length = length;
        if length == 0 {
            length = self.unit(place)? as usize;
            place += 1;
        }
        length += 1;
        if nth >= length {
            return None;
        }
        while length > LIST {
            let half = length / 2;
            if nth < half {
                length = half;
                place = self.lower_half(place + 1)?;
            } else {
                nth -= half;
                length -= half;
                place = self.past_delta(place + 1)?;
            }
        }
        length -= nth;
        for _ in 0..nth {
            place = self.past_value(place + 1)?;
        }
        let unit = self.unit(place)?;
        self.place = Some(if length > 1 { self.jumped(place + 1)? } else { place + 1 });
        Some(unit)
    }
}

/// The entries in unit order: a stack of cursors, each with the number of its next unit.
struct Entries<'a> {
    root_value: Option<i32>,
    stack: Vec<(Cursor<'a>, usize)>,
    key: String,
    lead: Option<u16>,
}

impl<'a> Entries<'a> {
    fn new(units: &'a [[u8; 2]]) -> Self {
        let cursor = Cursor::new(units);
        Entries {
            root_value: cursor.value(),
            stack: vec![(cursor, 0)],
            key: String::new(),
            lead: None,
        }
    }

    fn push(&mut self, unit: u16) {
        match self.lead.take() {
            Some(lead) => {
                let mut decoded = char::decode_utf16([lead, unit]);
                self.key.push(
                    decoded.next().and_then(Result::ok).unwrap_or(char::REPLACEMENT_CHARACTER),
                );
            }
            None if (0xD800..0xDC00).contains(&unit) => self.lead = Some(unit),
            None => {
                self.key.push(char::from_u32(unit as u32).unwrap_or(char::REPLACEMENT_CHARACTER))
            }
        }
    }

    fn pop(&mut self) {
        if self.lead.take().is_some() {
            return;
        }
        if let Some(c @ '\u{10000}'..) = self.key.pop() {
            self.lead = Some(((c as u32 >> 10) + 0xD7C0) as u16);
        }
    }
}

impl Iterator for Entries<'_> {
    type Item = (String, i32);

    fn next(&mut self) -> Option<(String, i32)> {
        if let Some(value) = self.root_value.take() {
            return Some((String::new(), value));
        }
        while let Some((cursor, nth)) = self.stack.last_mut() {
            let mut next = cursor.clone();
            let Some(unit) = next.step_nth(*nth) else {
                self.stack.pop();
                self.pop();
                continue;
            };
            *nth += 1;
            self.push(unit);
            let value = next.value();
            self.stack.push((next, 0));
            if let Some(value) = value {
                return Some((self.key.clone(), value));
            }
        }
        None
    }
}

/// # Safety
/// The bytes are whole units.
unsafe fn units<'a>(bytes: *const u8, len: usize) -> &'a [[u8; 2]] {
    unsafe { slice(bytes.cast(), len / 2) }
}

#[inline(never)]
fn value_of(units: &[[u8; 2]], key: &[u16]) -> u32 {
    let mut cursor = Cursor::new(units);
    key.iter().for_each(|unit| cursor.step16(*unit));
    cursor.value().unwrap_or(7) as u32
}

#[inline(never)]
fn values_along(units: &[[u8; 2]], key: &[u16]) -> u32 {
    let mut cursor = Cursor::new(units);
    key.iter().fold(0, |sum: u32, unit| {
        cursor.step16(*unit);
        sum.wrapping_add(cursor.value().unwrap_or(7) as u32)
    })
}

#[unsafe(no_mangle)]
unsafe extern "C" fn rust_c16_look(
    bytes: *const u8,
    len: usize,
    keys: *const u16,
    keys_len: usize,
    ends: *const u32,
    count: usize,
    along: bool,
) -> u64 {
    let (units, keys, ends) =
        unsafe { (units(bytes, len), slice(keys, keys_len), slice(ends, count)) };
    let (mut sum, mut start) = (0, 0);
    for end in ends {
        let key = &keys[start..*end as usize];
        sum = mixed(sum, if along { values_along(units, key) } else { value_of(units, key) });
        start = *end as usize;
    }
    sum
}

#[unsafe(no_mangle)]
unsafe extern "C" fn rust_c16_iter(bytes: *const u8, len: usize) -> u64 {
    let entries = Entries::new(unsafe { units(bytes, len) });
    entries.fold(0, |sum, (key, value)| {
        std::hint::black_box(key);
        mixed(sum, value as u32)
    })
}

#[unsafe(no_mangle)]
unsafe extern "C" fn rust_c16_keys(
    bytes: *const u8,
    len: usize,
    out: *mut u8,
    room: usize,
) -> usize {
    let all: String =
        Entries::new(unsafe { units(bytes, len) }).map(|(key, _)| key + "\n").collect();
    let out = unsafe { std::slice::from_raw_parts_mut(out, room) };
    out.iter_mut().zip(all.bytes()).for_each(|(place, byte)| *place = byte);
    all.len()
}
