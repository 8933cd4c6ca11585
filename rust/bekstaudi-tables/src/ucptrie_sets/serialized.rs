//! A set in ICU's serialized form, as bytes: units of 16 bits, low byte first.

use crate::host::*;
use crate::support::AllocError;
use crate::support::prelude::*;
use crate::ucptrie_sets::error::SetWriteError;
use bekstaudi::codepointinvlist::CodePointInversionList;
use bekstaudi::codepointinvlist::serialized::{SerializedSetError, from_serialized, to_serialized};

/// Appends the two bytes of a unit, the low one first.
fn push_unit(bytes: &mut Vec<u8>, unit: u16) -> Result<(), AllocError> {
    bytes.try_push((unit % 256) as u8)?;
    bytes.try_push((unit / 256) as u8)?;
    Ok(())
}

/// Returns the bytes of units, the low one of each first.
fn bytes_of_units(units: &[u16]) -> Result<Vec<u8>, AllocError> {
    let mut bytes = Vec::new();
    for unit in units {
        push_unit(&mut bytes, *unit)?;
    }
    Ok(bytes)
}

/// Returns the set in ICU's serialized form, as bytes.
///
/// # Errors
/// - `SetWriteError::TooLong` if and only if the boundaries take more than 0x7FFF units.
/// - `SetWriteError::Memory` if an allocation fails.
pub(crate) fn serialized_bytes(set: &CodePointInversionList<'_>) -> Result<Vec<u8>, SetWriteError> {
    let units = to_serialized(set)?;
    let bytes = bytes_of_units(&units)?;
    Ok(bytes)
}

/// Returns the unit of two bytes, the low one first.
fn unit_of(low: u8, high: u8) -> u16 {
    u16::from(low) + 256 * u16::from(high)
}

/// Returns the units of bytes, the low one of each first. A last byte without a partner is left
/// out.
fn units_of_bytes(bytes: &[u8]) -> Result<Vec<u16>, AllocError> {
    let mut units = Vec::new();
    let mut rest = bytes;
    while let [low, high, after @ ..] = rest {
        units.try_push(unit_of(*low, *high))?;
        rest = after;
    }
    Ok(units)
}

/// Reads the set at the start of bytes in ICU's serialized form, with the low byte of each unit
/// first. What follows the set is not read.
///
/// # Errors
/// Returns the first fault of the units, as
/// [`from_serialized`](crate::icu_invlist_binary::serialized::from_serialized) does, and
/// `SerializedSetError::Memory` if an allocation fails.
pub fn set_of_bytes(bytes: &[u8]) -> Result<CodePointInversionList<'static>, SerializedSetError> {
    let Ok(units) = units_of_bytes(bytes) else {
        return Err(SerializedSetError::Memory);
    };
    let read = from_serialized(&units)?;
    let (set, _) = read;
    Ok(set)
}
