//! Mistakes that a call on records could have. The self-test answers by each in the first case in which it makes a
//! difference, and checks that it is reported.

use super::plain::{
    self, Numbers, BAD_RECORD, BYTES, COMPARISONS, DARK, HEIGHT, LIGHT, MARK, NO_RECORD, SIDE_LIMIT, SIZES, SKIPPED,
    WIDTH,
};
use crate::fault::Fault::{self, Slipped};
use Slip::*;

#[derive(Clone, Copy, Debug, PartialEq, Eq)]
pub enum Slip {
    /// A side of 0 passes; one of 4,097; one of 4,096 does not.
    NoSidePasses,
    LongerPasses,
    LongestRefused,
    /// One side alone is looked at.
    WidthAlone,
    HeightAlone,
    /// The sum of the counts wraps at 32 bits; or at 64 bits, and counts that pass are cut to their fields.
    Wrapped32,
    Wrapped64,
    /// The skipped pixels are left out of it.
    WithoutSkipped,
    /// A sum below the area passes, and one above it.
    LessPasses,
    MorePasses,
    /// The counts are not added up.
    Unsummed,
    /// Sides, counts or comparisons are cut to their fields before they are looked at.
    SidesCut,
    CountsCut,
    ComparisonsCut,
    /// More comparisons than a reading makes, 24 a pixel, are refused.
    ComparisonsLimited,
    /// The values are looked at before the length and the mark.
    ValuesFirst,
    /// A slice of more than 28 bytes is refused.
    ExactLength,
    /// The record stands at the end of the slice.
    AtTheEnd,
    /// One byte of the mark is looked at, or none.
    FirstByteAlone,
    SecondByteAlone,
    Unmarked,
    /// The two bytes of the mark are exchanged.
    MarkExchanged,
    /// Each number has its lowest byte first.
    LowestFirst,
    /// Two numbers change places.
    SidesExchanged,
    DarkAndLight,
    LightAndSkipped,
    SkippedAndComparisons,
    /// The bytes after the record are cleared.
    TailCleared,
    /// A call that is refused with 14 writes all the same, or the mark alone.
    WritesRefused,
    MarkWritten,
}

/// Mistakes of every call, in the values.
pub const VALUES: &[Fault] = &[
    Slipped(NoSidePasses),
    Slipped(LongerPasses),
    Slipped(LongestRefused),
    Slipped(WidthAlone),
    Slipped(HeightAlone),
    Slipped(Wrapped32),
    Slipped(WithoutSkipped),
    Slipped(LessPasses),
    Slipped(MorePasses),
    Slipped(Unsummed),
    Slipped(ComparisonsLimited),
    Slipped(SidesExchanged),
    Slipped(DarkAndLight),
    Slipped(LightAndSkipped),
    Slipped(SkippedAndComparisons),
];
/// Mistakes of a call whose numbers may not fit their fields.
pub const WIDE: &[Fault] = &[Slipped(Wrapped64), Slipped(SidesCut), Slipped(CountsCut), Slipped(ComparisonsCut)];
/// Mistakes of a call that is lent a slice.
pub const SLICE: &[Fault] = &[
    Slipped(ValuesFirst),
    Slipped(ExactLength),
    Slipped(AtTheEnd),
    Slipped(MarkExchanged),
    Slipped(LowestFirst),
    Slipped(WritesRefused),
];
/// Mistakes of a write alone, and of a read alone.
pub const WRITING: &[Fault] = &[Slipped(TailCleared), Slipped(MarkWritten)];
pub const READING: &[Fault] = &[Slipped(FirstByteAlone), Slipped(SecondByteAlone), Slipped(Unmarked)];

/// Cuts each number from one place to another to its field.
fn cut(numbers: &mut Numbers, from: usize, to: usize) {
    for place in from..=to {
        numbers[place] &= (1 << (8 * SIZES[place])) - 1;
    }
}

impl Slip {
    fn good_side(self, side: u64) -> bool {
        match self {
            NoSidePasses => side <= SIDE_LIMIT,
            LongerPasses => side != 0 && side <= SIDE_LIMIT + 1,
            LongestRefused => side != 0 && side < SIDE_LIMIT,
            _ => plain::good_side(side),
        }
    }

    fn adds_up(self, numbers: &Numbers) -> bool {
        let (sum, area) = (plain::sum(numbers), plain::area(numbers));
        match self {
            Wrapped32 => sum % (1 << 32) == area,
            Wrapped64 => sum % (1 << 64) == area,
            WithoutSkipped => sum - u128::from(numbers[SKIPPED]) == area,
            LessPasses => sum <= area,
            MorePasses => sum >= area,
            Unsummed => true,
            _ => sum == area,
        }
    }

    fn bad(self, numbers: &Numbers) -> bool {
        let [wide, high] = [WIDTH, HEIGHT].map(|side| self.good_side(numbers[side]));
        let sides = match self {
            WidthAlone => wide,
            HeightAlone => high,
            _ => wide && high,
        };
        let many = self == ComparisonsLimited && u128::from(numbers[COMPARISONS]) > 24 * plain::area(numbers);
        !sides || !self.adds_up(numbers) || many
    }

    fn exchange(self, numbers: &mut Numbers) {
        match self {
            SidesExchanged => numbers.swap(WIDTH, HEIGHT),
            DarkAndLight => numbers.swap(DARK, LIGHT),
            LightAndSkipped => numbers.swap(LIGHT, SKIPPED),
            SkippedAndComparisons => numbers.swap(SKIPPED, COMPARISONS),
            _ => {}
        }
    }

    /// Turns the numbers behind the mark, so that each has its lowest byte first.
    fn turn(self, bytes: &mut [u8]) {
        let mut at = MARK.len();
        for size in SIZES.into_iter().filter(|_| self == LowestFirst) {
            bytes[at..at + size].reverse();
            at += size;
        }
    }

    fn mark(self) -> [u8; 2] {
        match self {
            MarkExchanged => [MARK[1], MARK[0]],
            _ => MARK,
        }
    }

    fn marked(self, bytes: &[u8]) -> bool {
        let mark = self.mark();
        match self {
            Unmarked => true,
            FirstByteAlone => bytes[0] == mark[0],
            SecondByteAlone => bytes[1] == mark[1],
            _ => bytes[..2] == mark,
        }
    }

    fn short(self, len: usize) -> bool {
        len < BYTES || (self == ExactLength && len > BYTES)
    }

    /// Returns what is made of the numbers.
    pub fn made(self, numbers: &Numbers) -> Result<Numbers, u32> {
        let mut numbers = *numbers;
        match self {
            SidesCut => cut(&mut numbers, WIDTH, HEIGHT),
            CountsCut => cut(&mut numbers, DARK, SKIPPED),
            ComparisonsCut => cut(&mut numbers, COMPARISONS, COMPARISONS),
            _ => {}
        }
        if self.bad(&numbers) {
            return Err(BAD_RECORD);
        }
        if self == Wrapped64 {
            cut(&mut numbers, DARK, SKIPPED);
        }
        if !plain::fit(&numbers) {
            return Err(BAD_RECORD);
        }
        self.exchange(&mut numbers);
        Ok(numbers)
    }

    /// Returns the number of a write, and the destination as it leaves it.
    pub fn written(self, numbers: &Numbers, dst: &[u8]) -> (u32, Vec<u8>) {
        let mut dst = dst.to_vec();
        let made = self.made(numbers);
        if self.short(dst.len()) {
            let number = if self == ValuesFirst && made.is_err() { BAD_RECORD } else { NO_RECORD };
            return (number, dst);
        }
        let start = if self == AtTheEnd { dst.len() - BYTES } else { 0 };
        match made {
            Err(number) => {
                if self == WritesRefused {
                    dst[start..start + BYTES].copy_from_slice(&plain::bytes(numbers));
                } else if self == MarkWritten {
                    dst[..2].copy_from_slice(&MARK);
                }
                (number, dst)
            }
            Ok(made) => {
                let mut bytes = plain::bytes(&made);
                bytes[..2].copy_from_slice(&self.mark());
                self.turn(&mut bytes);
                dst[start..start + BYTES].copy_from_slice(&bytes);
                if self == TailCleared {
                    dst[BYTES..].fill(0);
                }
                (0, dst)
            }
        }
    }

    /// Returns the number of a read, and the lent numbers as it leaves them.
    pub fn taken(self, source: &[u8], lent: &Numbers) -> (u32, Numbers) {
        let start = if self == AtTheEnd { source.len().saturating_sub(BYTES) } else { 0 };
        let mut bytes = source[start..].to_vec();
        bytes.resize(BYTES, 0);
        self.turn(&mut bytes);
        let mut numbers = plain::numbers(&bytes);
        let bad = self.bad(&numbers);
        self.exchange(&mut numbers);
        if self == ValuesFirst && bad {
            (BAD_RECORD, *lent)
        } else if self.short(source.len()) || !self.marked(&bytes) {
            (NO_RECORD, *lent)
        } else if bad {
            (BAD_RECORD, if self == WritesRefused { numbers } else { *lent })
        } else {
            (0, numbers)
        }
    }
}
