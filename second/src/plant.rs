//! Wrong bodies that can be put in, to see whether a comparison finds them. None is in place unless one was asked for.

use std::sync::atomic::{AtomicU8, Ordering};

/// A wrong body.
#[derive(Clone, Copy, PartialEq, Eq, Debug)]
pub enum Plant {
    /// A chain's second segment begins without the carry of its first.
    CarryLost,
    /// What narrowing asks of an argument is not rounded up to whole bytes.
    DemandNotRounded,
    /// A register is free again although another group still has to read it.
    RegisterFreedEarly,
    /// Delays of one stream with different initial values are taken for one.
    DelaysMixed,
    /// A signed value is widened with zeros.
    SignForgotten,
    /// A recurrence that reads two or more samples back reads one sample less far.
    PastTooNear,
    /// A shift by a stream passes over the amount's highest bit.
    ShiftBitMissed,
    /// A stage that returns starts with the state that it was configured with.
    StateNotSaved,
    /// A result leaves although 16 wait.
    QueueOverfull,
    /// A line of samples may begin with a sign of plus.
    PlusAccepted,
}

use Plant::*;

/// Each plant with what it is called in the fuzzer's report.
pub const PLANTS: [(Plant, &str); 10] = [
    (CarryLost, "a carry is lost between segments"),
    (DemandNotRounded, "a demand is not rounded up"),
    (RegisterFreedEarly, "a register is freed too early"),
    (DelaysMixed, "delays with different initial values are one"),
    (SignForgotten, "a signed value is widened with zeros"),
    (PastTooNear, "a recurrence reads its past one sample too near"),
    (ShiftBitMissed, "a shift passes over the highest bit of its amount"),
    (StateNotSaved, "a stage forgets its state when it is swapped out"),
    (QueueOverfull, "a result leaves although 16 wait"),
    (PlusAccepted, "a number of a sample may have a plus sign"),
];

static PLANTED: AtomicU8 = AtomicU8::new(0);

/// Puts the plant of this number in, counted from 1; 0 takes it out.
pub fn put_in(number: u8) {
    PLANTED.store(number, Ordering::Relaxed);
}

/// Whether the wrong body is to be taken.
pub fn is(plant: Plant) -> bool {
    PLANTED.load(Ordering::Relaxed) == plant as u8 + 1
}

/// Whether any wrong body was put in.
pub fn is_any() -> bool {
    PLANTED.load(Ordering::Relaxed) != 0
}
