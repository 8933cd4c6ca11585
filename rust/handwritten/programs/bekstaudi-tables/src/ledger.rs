//! Ledgers count steps in proofs. Here they are empty types, and nothing is counted.
#![allow(dead_code)]

use core::marker::PhantomData;

/// The identity of a count.
pub trait Ledger {}

/// The ledger of a count that nobody reads.
pub struct Brand;

impl Ledger for Brand {}

/// A book without a ledger.
pub struct Blank;

impl Blank {
    /// Returns a blank book. Only proofs use the number of shares.
    pub fn new(_shares: usize) -> Blank {
        Blank
    }
}

/// A count of steps.
pub struct Steps<L>(PhantomData<L>);

impl<L: Ledger> Steps<L> {
    /// Returns a count.
    pub fn new(_: Blank) -> Steps<L> {
        Steps(PhantomData)
    }

    /// Counts nothing.
    pub fn tick(&mut self) {}
}
