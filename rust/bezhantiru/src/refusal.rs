//! The refusals that reach a caller. Document 01, "Refused, by place", and the answers of
//! document 02's requests.

use std::fmt;

/// Why a call was refused.
#[derive(Clone, Copy, Debug, PartialEq, Eq)]
pub enum Refusal {
    WindowsOutOfRange,
    FirstEntryNotZero,
    EntryTooLarge,
    EntryFalls,
    WindowTooLong,
    DelayOutOfRange,
    BufferOutOfRange,
    TooManyArrivals,
    SlotsUsedUp,
    TraceTooLong,
    ListOfOtherLength,
    FileWithoutHeader,
    FileOfOtherLength,
    BurstSlotOutOfOrder,
    BucketsOutOfRange,
    BucketTooLarge,
    StagesOutOfRange,
    SlotBeyondTrace,
    EntryUpToDiagonal,
    TraceBeyondSquare,
    PortOutOfRange,
    DeadlineTooLong,
    BothLimitsNone,
    ShortTraceTooLong,
    /// A number that no function of the library gives.
    Unlisted(u32),
}

impl Refusal {
    /// Those with a number in the documents, from 1 on.
    pub const LISTED: [Refusal; 24] = [
        Refusal::WindowsOutOfRange,
        Refusal::FirstEntryNotZero,
        Refusal::EntryTooLarge,
        Refusal::EntryFalls,
        Refusal::WindowTooLong,
        Refusal::DelayOutOfRange,
        Refusal::BufferOutOfRange,
        Refusal::TooManyArrivals,
        Refusal::SlotsUsedUp,
        Refusal::TraceTooLong,
        Refusal::ListOfOtherLength,
        Refusal::FileWithoutHeader,
        Refusal::FileOfOtherLength,
        Refusal::BurstSlotOutOfOrder,
        Refusal::BucketsOutOfRange,
        Refusal::BucketTooLarge,
        Refusal::StagesOutOfRange,
        Refusal::SlotBeyondTrace,
        Refusal::EntryUpToDiagonal,
        Refusal::TraceBeyondSquare,
        Refusal::PortOutOfRange,
        Refusal::DeadlineTooLong,
        Refusal::BothLimitsNone,
        Refusal::ShortTraceTooLong,
    ];

    /// The number in the documents.
    pub fn number(self) -> u32 {
        match self {
            Refusal::WindowsOutOfRange => 1,
            Refusal::FirstEntryNotZero => 2,
            Refusal::EntryTooLarge => 3,
            Refusal::EntryFalls => 4,
            Refusal::WindowTooLong => 5,
            Refusal::DelayOutOfRange => 6,
            Refusal::BufferOutOfRange => 7,
            Refusal::TooManyArrivals => 8,
            Refusal::SlotsUsedUp => 9,
            Refusal::TraceTooLong => 10,
            Refusal::ListOfOtherLength => 11,
            Refusal::FileWithoutHeader => 12,
            Refusal::FileOfOtherLength => 13,
            Refusal::BurstSlotOutOfOrder => 14,
            Refusal::BucketsOutOfRange => 15,
            Refusal::BucketTooLarge => 16,
            Refusal::StagesOutOfRange => 17,
            Refusal::SlotBeyondTrace => 18,
            Refusal::EntryUpToDiagonal => 19,
            Refusal::TraceBeyondSquare => 20,
            Refusal::PortOutOfRange => 21,
            Refusal::DeadlineTooLong => 22,
            Refusal::BothLimitsNone => 23,
            Refusal::ShortTraceTooLong => 24,
            Refusal::Unlisted(number) => number,
        }
    }

    fn condition(self) -> &'static str {
        match self {
            Refusal::WindowsOutOfRange => "L is not 1 to 64",
            Refusal::FirstEntryNotZero => "f(0) is not 0",
            Refusal::EntryTooLarge => "an entry above 1,000,000",
            Refusal::EntryFalls => "an entry below the one before",
            Refusal::WindowTooLong => "window above 4,160",
            Refusal::DelayOutOfRange => "delay is neither 0 to 64 nor 255",
            Refusal::BufferOutOfRange => "buffer is neither 0 to 1,000,000 nor 4,294,967,295",
            Refusal::TooManyArrivals => "more than 1,000,000 arrivals",
            Refusal::SlotsUsedUp => "1,000,000 slots already taken",
            Refusal::TraceTooLong => "T, m or the trace's length above 4,096",
            Refusal::ListOfOtherLength => "a lent list of the wrong length",
            Refusal::FileWithoutHeader => "fewer than 20 bytes",
            Refusal::FileOfOtherLength => "length is not 20 + 4 × (L+1) + 8 × m bytes",
            Refusal::BurstSlotOutOfOrder => "a slot number 0, above T, or not above the one before",
            Refusal::BucketsOutOfRange => "a number of buckets outside 1 to 4",
            Refusal::BucketTooLarge => "a rate or burst above 1,000,000",
            Refusal::StagesOutOfRange => "a number of stages outside 1 to 4",
            Refusal::SlotBeyondTrace => "a slot above the trace's length",
            Refusal::EntryUpToDiagonal => "a non-zero entry on or below the diagonal",
            Refusal::TraceBeyondSquare => "a trace longer than 32 - d slots",
            Refusal::PortOutOfRange => "streams outside 1 to 8, or a run above 256 slots",
            Refusal::DeadlineTooLong => "a deadline above 64",
            Refusal::BothLimitsNone => "both limits none",
            Refusal::ShortTraceTooLong => "more than 5 slots in a short trace",
            Refusal::Unlisted(_) => "a number that the documents do not list",
        }
    }

    /// The outcome that an answer's number stands for.
    #[inline]
    pub(crate) fn check(number: u32) -> Result<(), Refusal> {
        if number == 0 {
            Ok(())
        } else {
            Err(Refusal::numbered(number))
        }
    }

    /// The one with this number in the documents.
    pub fn listed(number: u32) -> Option<Refusal> {
        Refusal::LISTED
            .into_iter()
            .find(|refusal| refusal.number() == number)
    }

    fn numbered(number: u32) -> Refusal {
        Refusal::listed(number).unwrap_or(Refusal::Unlisted(number))
    }
}

impl fmt::Display for Refusal {
    fn fmt(&self, out: &mut fmt::Formatter<'_>) -> fmt::Result {
        write!(out, "refused {}: {}", self.number(), self.condition())
    }
}

impl std::error::Error for Refusal {}

#[cfg(test)]
mod tests {
    use super::*;

    #[test]
    fn numbers_come_back() {
        assert_eq!(Refusal::check(0), Ok(()));
        for (number, refusal) in (1..).zip(Refusal::LISTED) {
            assert_eq!(refusal.number(), number);
            assert_eq!(Refusal::check(refusal.number()), Err(refusal));
        }
        for number in [25, 255, u32::MAX] {
            assert_eq!(Refusal::check(number), Err(Refusal::Unlisted(number)));
        }
    }

    #[test]
    fn a_refusal_says_its_number_and_condition() {
        let said = Refusal::TooManyArrivals.to_string();
        assert_eq!(said, "refused 8: more than 1,000,000 arrivals");
    }
}
