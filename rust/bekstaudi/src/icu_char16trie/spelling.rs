//! The key of an entry as text, while it grows.

use crate::icu_zerovec::ZeroSlice;
use crate::support::AllocError;
use crate::support::prelude::*;

/// A lead surrogate, the first unit of a surrogate pair.
#[derive(Clone, Copy, Debug)]
pub(crate) struct LeadSurrogate {
    pub unit: u16,
}

/// A point to which a spelling can be cut back.
#[derive(Clone, Copy, Debug)]
pub(crate) struct Mark {
    /// The length of the text at that point, in bytes.
    pub len: usize,
    /// The lead surrogate that was held at that point.
    pub held: Option<LeadSurrogate>,
}

/// The text of a key whose units come one by one. A lead surrogate is held until the next unit
/// shows whether the two are a pair.
#[derive(Debug, Clone)]
pub(crate) struct Spelling {
    pub text: String,
    pub held: Option<LeadSurrogate>,
}

/// Returns the unit if it is a lead surrogate.
#[inline(always)]
fn lead_surrogate(unit: u16) -> Option<LeadSurrogate> {
    if !(0xD800..0xDC00).contains(&unit) {
        return None;
    }
    Some(LeadSurrogate { unit })
}

/// Returns the character of a unit that is in no pair: U+FFFD for a surrogate.
#[inline(always)]
fn lone_char(unit: u16) -> char {
    char::from_u32(u32::from(unit)).unwrap_or(char::REPLACEMENT_CHARACTER)
}

/// Returns the character of a lead surrogate and the unit after it, if they are a pair.
#[inline(always)]
fn pair_char(lead: LeadSurrogate, unit: u16) -> Option<char> {
    if !(0xDC00..0xE000).contains(&unit) {
        return None;
    }
    char::from_u32(0x1_0000 + (u32::from(lead.unit - 0xD800) << 10) + u32::from(unit - 0xDC00))
}

impl Spelling {
    /// Creates the spelling of the empty key.
    #[inline]
    pub(crate) fn new() -> Self {
        Spelling {
            text: String::new(),
            held: None,
        }
    }

    /// Appends a unit when no lead surrogate is held.
    #[inline(always)]
    fn push_next(&mut self, unit: u16) -> Result<(), AllocError> {
        if unit < 0x80 {
            self.text.try_push(char::from(unit as u8))?;
            return Ok(());
        }
        if let Some(lead) = lead_surrogate(unit) {
            self.held = Some(lead);
            return Ok(());
        }
        self.text.try_push(lone_char(unit))?;
        Ok(())
    }

    /// Appends a unit after a held lead surrogate with which it is no pair.
    #[cold]
    #[inline(never)]
    fn push_apart(&mut self, _lead: LeadSurrogate, unit: u16) -> Result<(), AllocError> {
        self.held = None;
        self.text.try_push(char::REPLACEMENT_CHARACTER)?;
        self.push_next(unit)?;
        Ok(())
    }

    /// Appends a unit after a held lead surrogate.
    #[inline(always)]
    fn push_after(&mut self, lead: LeadSurrogate, unit: u16) -> Result<(), AllocError> {
        if let Some(c) = pair_char(lead, unit) {
            self.held = None;
            self.text.try_push(c)?;
            return Ok(());
        }
        self.push_apart(lead, unit)?;
        Ok(())
    }

    /// Appends a unit.
    #[inline(always)]
    pub(crate) fn try_push(&mut self, unit: u16) -> Result<(), AllocError> {
        let Some(lead) = self.held else {
            self.push_next(unit)?;
            return Ok(());
        };
        self.push_after(lead, unit)?;
        Ok(())
    }

    /// Appends the `count` units at `place`.
    #[inline]
    pub(crate) fn push_run(
        &mut self,
        units: ZeroSlice<'_, u16>,
        place: usize,
        count: usize,
    ) -> Result<(), AllocError> {
        for i in 0..count {
            self.try_push(units.at(place + i))?;
        }
        Ok(())
    }

    /// Returns a mark of the current state.
    #[inline]
    pub(crate) fn mark(&self) -> Mark {
        Mark {
            len: self.text.len(),
            held: self.held,
        }
    }

    /// Cuts the spelling back to what it was at the mark.
    #[inline]
    pub(crate) fn cut_to(&mut self, mark: Mark) {
        self.text.truncate(mark.len);
        self.held = mark.held;
    }
}
