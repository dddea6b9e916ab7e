//! The corners of records: each limit where it is just kept and where it is just passed, and each reason of a refusal.

use super::plain::{self, Numbers, BAD_RECORD, BYTES, COMPARISONS, DARK, HEIGHT, MARK, SKIPPED, WIDTH};
use crate::corner::Corner::{self, Record};
use Edge::*;

#[derive(Clone, Copy, Debug, PartialEq, Eq, PartialOrd, Ord)]
pub enum Edge {
    LeastWidth,
    LeastHeight,
    LargestWidth,
    LargestHeight,
    LargestSides,
    AllDark,
    AllLight,
    AllSkipped,
    /// Three counts above 0, each another one.
    EachCount,
    LargestFlask,
    LargestPass,
    LargestComparisons,
    JustEnough,
    Longer,
    // What follows is refused.
    NoWidth,
    NoHeight,
    WidthPast,
    HeightPast,
    OneLess,
    OneMore,
    /// The sum is right modulo 2^32, and is not the area.
    Wraps32,
    /// The same modulo 2^64.
    Wraps64,
    /// A width or a height whose low 16 bits would be right.
    SideCut,
    /// A count whose low 32 bits would be right.
    CountCut,
    ComparisonsPast,
    OneByteShort,
    NoBytes,
    FirstMark,
    SecondMark,
    MarkExchanged,
    ShortAndBad,
    UnmarkedAndBad,
}

/// The corners of the three counts.
pub const COUNTS: &[Corner] = &[Record(AllDark), Record(AllLight), Record(AllSkipped), Record(EachCount)];
/// The other corners of the values of every record.
pub const VALUES: &[Corner] = &[
    Record(LeastWidth),
    Record(LeastHeight),
    Record(LargestWidth),
    Record(LargestHeight),
    Record(LargestSides),
    Record(LargestFlask),
    Record(LargestPass),
    Record(LargestComparisons),
    Record(NoWidth),
    Record(NoHeight),
    Record(WidthPast),
    Record(HeightPast),
    Record(OneLess),
    Record(OneMore),
    Record(Wraps32),
];
/// Those of numbers that may not fit their fields.
pub const WIDE: &[Corner] = &[Record(Wraps64), Record(SideCut), Record(CountCut), Record(ComparisonsPast)];
/// Those of the length of a slice.
pub const LENGTH: &[Corner] =
    &[Record(JustEnough), Record(Longer), Record(OneByteShort), Record(NoBytes), Record(ShortAndBad)];
/// Those of a mark that is read.
pub const MARKS: &[Corner] = &[Record(FirstMark), Record(SecondMark), Record(MarkExchanged), Record(UnmarkedAndBad)];

impl Edge {
    /// Returns the name for a report.
    pub fn label(self) -> &'static str {
        match self {
            LeastWidth => "width 1",
            LeastHeight => "height 1",
            LargestWidth => "width 4096",
            LargestHeight => "height 4096",
            LargestSides => "sides 4096",
            AllDark => "all dark",
            AllLight => "all light",
            AllSkipped => "all skipped",
            EachCount => "dark, light and skipped",
            LargestFlask => "flask 2^32 - 1",
            LargestPass => "pass 65535",
            LargestComparisons => "comparisons 2^32 - 1",
            JustEnough => "28 bytes",
            Longer => "more bytes",
            NoWidth => "width 0, refused",
            NoHeight => "height 0, refused",
            WidthPast => "width 4097, refused",
            HeightPast => "height 4097, refused",
            OneLess => "one pixel less, refused",
            OneMore => "one pixel more, refused",
            Wraps32 => "a sum that wraps at 2^32, refused",
            Wraps64 => "a sum that wraps at 2^64, refused",
            SideCut => "a side past its field, refused",
            CountCut => "a count past its field, refused",
            ComparisonsPast => "comparisons 2^32, refused",
            OneByteShort => "27 bytes, refused",
            NoBytes => "no bytes, refused",
            FirstMark => "another first byte, refused",
            SecondMark => "another second byte, refused",
            MarkExchanged => "mark 31 52, refused",
            ShortAndBad => "short and bad, refused with 13",
            UnmarkedAndBad => "unmarked and bad, refused with 13",
        }
    }
}

/// Returns those of the given corners that hold.
fn standing<const N: usize>(list: [(Edge, bool); N]) -> Vec<Corner> {
    list.into_iter().filter(|&(_, holds)| holds).map(|(edge, _)| Record(edge)).collect()
}

/// Returns the corners of the counts of an accepted record.
pub fn of_counts(numbers: &Numbers) -> Vec<Corner> {
    let [_, _, _, _, dark, light, skipped, _] = *numbers;
    let all = plain::area(numbers);
    let each = dark * light * skipped > 0 && dark != light && light != skipped && skipped != dark;
    standing([
        (AllDark, u128::from(dark) == all),
        (AllLight, u128::from(light) == all),
        (AllSkipped, u128::from(skipped) == all),
        (EachCount, each),
    ])
}

/// Returns the other corners of the values of an accepted record.
pub fn of_values(numbers: &Numbers) -> Vec<Corner> {
    let [flask, pass, width, height, _, _, _, comparisons] = *numbers;
    standing([
        (LeastWidth, width == 1),
        (LeastHeight, height == 1),
        (LargestWidth, width == 4096),
        (LargestHeight, height == 4096),
        (LargestSides, width == 4096 && height == 4096),
        (LargestFlask, flask == u64::from(u32::MAX)),
        (LargestPass, pass == u64::from(u16::MAX)),
        (LargestComparisons, comparisons == u64::from(u32::MAX)),
    ])
}

/// Returns the corners of the length of an accepted slice.
pub fn of_length(len: usize) -> Vec<Corner> {
    standing([(JustEnough, len == BYTES), (Longer, len > BYTES)])
}

/// Returns the numbers, each cut to this many bits from one place to another.
fn cut(numbers: &Numbers, from: usize, to: usize, bits: u32) -> Numbers {
    let mut cut = *numbers;
    cut[from..=to].iter_mut().for_each(|number| *number &= (1 << bits) - 1);
    cut
}

/// Returns the corners at which values are refused with this number, each for this reason alone.
pub fn past_values(numbers: &Numbers, number: u32) -> Vec<Corner> {
    if number != BAD_RECORD {
        return vec![];
    }
    let (sum, area) = (plain::sum(numbers), plain::area(numbers));
    let [width, height] = [numbers[WIDTH], numbers[HEIGHT]];
    let (wide, high) = (plain::good_side(width), plain::good_side(height));
    let (sides, adds_up, kept) = (wide && high, sum == area, plain::fits(numbers[COMPARISONS], 4));
    let right_if = |other: Numbers| other != *numbers && !plain::bad(&other) && kept;
    standing([
        (NoWidth, width == 0 && high && adds_up && kept),
        (NoHeight, height == 0 && wide && adds_up && kept),
        (WidthPast, width == 4097 && high && adds_up && kept),
        (HeightPast, height == 4097 && wide && adds_up && kept),
        (OneLess, sides && sum + 1 == area && kept),
        (OneMore, sides && sum == area + 1 && kept),
        (Wraps32, sides && !adds_up && sum % (1 << 32) == area && plain::fit(numbers)),
        (Wraps64, sides && !adds_up && sum % (1 << 64) == area && kept),
        (SideCut, right_if(cut(numbers, WIDTH, HEIGHT, 16))),
        (CountCut, right_if(cut(numbers, DARK, SKIPPED, 32))),
        (ComparisonsPast, sides && adds_up && numbers[COMPARISONS] == 1 << 32),
    ])
}

/// Returns the corners at which a slice of this length is refused with this number.
pub fn past_length(len: usize, bad: bool, number: u32) -> Vec<Corner> {
    let short = number == plain::NO_RECORD && len < BYTES;
    standing([
        (OneByteShort, short && len == BYTES - 1 && !bad),
        (NoBytes, short && len == 0),
        (ShortAndBad, short && len > 0 && bad),
    ])
}

/// Returns the corners at which the mark of a slice that is long enough is refused.
pub fn past_mark(mark: [u8; 2], bad: bool) -> Vec<Corner> {
    let [first, second] = [mark[0] == MARK[0], mark[1] == MARK[1]];
    standing([
        (FirstMark, !first && second && !bad),
        (SecondMark, first && !second && !bad),
        (MarkExchanged, mark == [MARK[1], MARK[0]] && !bad),
        (UnmarkedAndBad, mark != MARK && bad),
    ])
}
