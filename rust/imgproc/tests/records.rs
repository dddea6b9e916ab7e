//! Tests the records: their bytes both ways, the refusals in order, and what stays as it was.

use imgproc::reading::{ReadingConfig, ReadingCounts, ReadingWorkspace};
use imgproc::records::{Record, RECORD_BYTES};
use imgproc::{Geometry, Refusal};

const NONE: Refusal = Refusal::NoRecord;
const BAD: Refusal = Refusal::BadRecord;

/// A record in which no two fields are the same, and its bytes, written by hand.
const RECORD: Record = Record {
    flask: 0x0a1b_2c3d,
    pass: 0x4e5f,
    width: 1929,
    height: 1588,
    dark: 987_426,
    light: 1_354_701,
    skipped: 721_125,
    comparisons: 0x89ab_cdef,
};
const BYTES: [u8; 28] = [
    0x52, 0x31, 0x0a, 0x1b, 0x2c, 0x3d, 0x4e, 0x5f, 0x07, 0x89, 0x06, 0x34, 0x00, 0x0f, 0x11, 0x22, 0x00, 0x14, 0xab,
    0xcd, 0x00, 0x0b, 0x00, 0xe5, 0x89, 0xab, 0xcd, 0xef,
];

/// Returns the bytes of a record whose values may be bad, which no call writes.
fn bytes_of(record: &Record) -> [u8; RECORD_BYTES] {
    let mut bytes = BYTES;
    bytes[2..6].copy_from_slice(&record.flask.to_be_bytes());
    bytes[6..8].copy_from_slice(&record.pass.to_be_bytes());
    bytes[8..10].copy_from_slice(&record.width.to_be_bytes());
    bytes[10..12].copy_from_slice(&record.height.to_be_bytes());
    bytes[12..16].copy_from_slice(&record.dark.to_be_bytes());
    bytes[16..20].copy_from_slice(&record.light.to_be_bytes());
    bytes[20..24].copy_from_slice(&record.skipped.to_be_bytes());
    bytes[24..].copy_from_slice(&record.comparisons.to_be_bytes());
    bytes
}

/// Writes into `len` bytes, and checks that no byte changes if the call is refused, and else none after the record.
fn write(record: &Record, len: usize) -> Result<[u8; RECORD_BYTES], Refusal> {
    let mut room = vec![0xaa; len];
    let answer = record.write(&mut room);
    let kept = if answer.is_ok() { RECORD_BYTES } else { 0 };
    assert!(room[kept..].iter().all(|&byte| byte == 0xaa), "{record:?} {len}");
    answer.map(|()| room[..RECORD_BYTES].try_into().unwrap())
}

fn of_reading(geometry: Geometry, [dark, light, skipped, comparisons]: [u64; 4]) -> Result<Record, Refusal> {
    Record::of_reading(3, 4, geometry, ReadingCounts { dark, light, skipped, comparisons })
}

/// Each bad record by itself: its values are good but for the one fault.
fn bad_records() -> Vec<Record> {
    let sides = |width: u16, height: u16| {
        let area = u32::from(width) * u32::from(height);
        Record { width, height, dark: area, light: 0, skipped: 0, ..RECORD }
    };
    vec![
        sides(0, 5),
        sides(5, 0),
        sides(0, 0),
        sides(4097, 1),
        sides(1, 4097),
        sides(u16::MAX, u16::MAX),
        Record { dark: RECORD.dark + 1, ..RECORD },
        Record { dark: RECORD.dark - 1, ..RECORD },
        Record { light: RECORD.light + 1, ..RECORD },
        Record { light: RECORD.light - 1, ..RECORD },
        Record { skipped: RECORD.skipped + 1, ..RECORD },
        Record { skipped: RECORD.skipped - 1, ..RECORD },
        Record { width: RECORD.width + 1, ..RECORD },
        Record { height: RECORD.height - 1, ..RECORD },
        // These sums are right modulo 2^32.
        Record { dark: u32::MAX, light: 1929 * 1588 - RECORD.skipped + 1, ..RECORD },
        Record { dark: 1 << 31, light: (1 << 31) + 1929 * 1588, skipped: 0, ..RECORD },
        Record { light: u32::MAX, skipped: 1929 * 1588 - RECORD.dark + 1, ..RECORD },
    ]
}

#[test]
fn a_record_has_these_bytes_both_ways() {
    assert_eq!(RECORD_BYTES, 28);
    assert_eq!(bytes_of(&RECORD), BYTES);
    for len in 28..=40 {
        assert_eq!(write(&RECORD, len), Ok(BYTES));
        for rest in [0, 0x52, 0xff] {
            let mut source = vec![rest; len];
            source[..28].copy_from_slice(&BYTES);
            assert_eq!(Record::read(&source), Ok(RECORD));
        }
    }
}

#[test]
fn limits_are_accepted() {
    let records = [
        Record { width: 1, height: 1, dark: 0, light: 1, skipped: 0, ..RECORD },
        Record { width: 4096, height: 4096, dark: 0, light: 0, skipped: 1 << 24, ..RECORD },
        Record { width: 1, height: 4096, dark: 4096, light: 0, skipped: 0, ..RECORD },
        Record { flask: 0, pass: 0, comparisons: 0, ..RECORD },
        Record { flask: u32::MAX, pass: u16::MAX, comparisons: u32::MAX, ..RECORD },
    ];
    for record in records {
        assert_eq!(write(&record, 28), Ok(bytes_of(&record)));
        assert_eq!(Record::read(&bytes_of(&record)), Ok(record));
    }
}

#[test]
fn bytes_that_are_no_record_are_13_even_if_the_values_are_bad() {
    for record in bad_records().into_iter().chain([RECORD]) {
        for len in 0..28 {
            assert_eq!(write(&record, len), Err(NONE));
            assert_eq!(Record::read(&bytes_of(&record)[..len]), Err(NONE));
        }
        for bit in 0..16 {
            let mut bytes = bytes_of(&record);
            bytes[bit / 8] ^= 1 << (bit % 8);
            assert_eq!(Record::read(&bytes), Err(NONE));
        }
        let mut bytes = bytes_of(&record);
        bytes.swap(0, 1);
        assert_eq!(Record::read(&bytes), Err(NONE));
    }
}

#[test]
fn bad_values_are_14() {
    for record in bad_records() {
        for len in [28, 29, 40] {
            assert_eq!(write(&record, len), Err(BAD), "{record:?}");
        }
        assert_eq!(Record::read(&bytes_of(&record)), Err(BAD), "{record:?}");
    }
}

#[test]
fn numbers_that_do_not_fit_are_14() {
    let picture = Geometry::packed(40, 30);
    let counts = [480, 620, 100, 23_520];
    let record = Record { flask: 3, pass: 4, width: 40, height: 30, dark: 480, light: 620, skipped: 100, ..RECORD };
    assert_eq!(of_reading(picture, counts), Ok(Record { comparisons: 23_520, ..record }));
    let most = u64::from(u32::MAX);
    assert_eq!(of_reading(picture, [480, 620, 100, most]), Ok(Record { comparisons: u32::MAX, ..record }));
    // The stride does not matter.
    assert_eq!(of_reading(Geometry { stride: 0, ..picture }, counts), of_reading(picture, counts));
    for comparisons in [1 << 32, (1 << 32) + 23_520, u64::MAX] {
        assert_eq!(of_reading(picture, [480, 620, 100, comparisons]), Err(BAD));
    }
    // These counts are right modulo 2^32 or 2^64, in one of them or in their sum.
    let wraps = [
        [(1 << 32) + 480, 620, 100],
        [480, (1 << 32) + 620, 100],
        [480, 620, (1 << 32) + 100],
        [1 << 31, (1 << 31) + 1200, 0],
        [u64::MAX, 1101, 100],
        [1 << 63, (1 << 63) + 1200, 0],
        [1200, u64::MAX, 1],
        [1200, 1, u64::MAX],
        [u64::MAX, u64::MAX, 1202],
    ];
    for [dark, light, skipped] in wraps {
        assert_eq!(of_reading(picture, [dark, light, skipped, 0]), Err(BAD), "{dark} {light} {skipped}");
    }
    // These sides are 40 and 30 in 16 or 32 bits, or have a product of 1,200 or 0 in 64.
    for more in [1 << 16, 1 << 32, 1 << 48, usize::MAX - 65_535] {
        assert_eq!(of_reading(Geometry::packed(40 + more, 30), counts), Err(BAD), "{more}");
        assert_eq!(of_reading(Geometry::packed(40, 30 + more), counts), Err(BAD), "{more}");
    }
    assert_eq!(of_reading(Geometry::packed(65_537, 30), [30, 0, 0, 0]), Err(BAD));
    assert_eq!(of_reading(Geometry::packed(65_537, 30), [65_537 * 30, 0, 0, 0]), Err(BAD));
    assert_eq!(of_reading(Geometry::packed(1 << 32, 1 << 32), [0, 0, 0, 0]), Err(BAD));
    assert_eq!(of_reading(Geometry::packed(0, 30), [0, 0, 0, 0]), Err(BAD));
    assert_eq!(of_reading(Geometry::packed(4097, 1), [4097, 0, 0, 0]), Err(BAD));
}

#[test]
fn a_reading_is_kept() {
    // A dark column in the middle of a light picture, lower from picture to picture.
    let geometry = Geometry { width: 48, height: 40, stride: 50 };
    let mut workspace = ReadingWorkspace::new(geometry, &ReadingConfig::default()).unwrap();
    let mut kept = Vec::new();
    for pass in 0..5_u16 {
        let mut picture = [200; 50 * 40];
        for row in picture.chunks_mut(50).skip(5 + 7 * usize::from(pass)) {
            row[20..28].fill(90);
        }
        let counts = workspace.reading(&picture, geometry, &mut [0; 50 * 40], geometry).unwrap();
        assert!(counts.dark > 0 && counts.light > 0 && counts.comparisons > 0);
        let record = Record::of_reading(12, pass, geometry, counts).unwrap();
        assert_eq!((record.flask, record.pass, record.width, record.height), (12, pass, 48, 40));
        let numbers = [record.dark, record.light, record.skipped, record.comparisons].map(u64::from);
        assert_eq!(numbers, [counts.dark, counts.light, counts.skipped, counts.comparisons]);
        // Records follow each other in one buffer.
        kept.extend_from_slice(&write(&record, 28).unwrap());
        assert_eq!(Record::read(&kept[28 * usize::from(pass)..]), Ok(record));
    }
    let passes: Vec<u16> = kept.chunks(28).map(|bytes| Record::read(bytes).unwrap().pass).collect();
    assert_eq!(passes, [0, 1, 2, 3, 4]);
}
