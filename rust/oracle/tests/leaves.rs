//! The leaves as the Rust gives them. P1 to P8 are the worked values of the scope paper.

use oracle::leaves::cell;
use oracle::leaves::distance;
use oracle::leaves::is_invalid;
use oracle::leaves::lower;
use oracle::leaves::negate;
use oracle::leaves::project;
use oracle::leaves::record;
use oracle::leaves::size;
use oracle::leaves::Cell;
use oracle::leaves::Record;
use oracle::leaves::Size;
use oracle::leaves::Vector;
use oracle::Outcome;
use oracle::Outcome::Gave;
use oracle::Outcome::Panicked;

fn gave(y: i16, x: i16) -> Outcome<Vector> {
    Gave(Vector { y, x })
}

#[test]
fn p1_to_p5_projection() {
    assert_eq!(project(100, -100, 3, 2), gave(150, -150));
    assert_eq!(project(1, -1, 1, 2), gave(1, -1));
    assert_eq!(project(1, 1, 1, 3), gave(0, 0));
    assert_eq!(project(3, 3, 1, 6), gave(0, 0));
    assert_eq!(project(4095, -4095, 31, 1), gave(16383, -16383));
}

#[test]
fn p6_distance() {
    assert_eq!(distance(3, 1, 7), Gave(2));
    assert_eq!(distance(3, 0, 4), Gave(-4));
    assert_eq!(distance(3, 4, 0), Gave(-4));
    assert_eq!(distance(0, 0, 0), Gave(0));
}

#[test]
fn p7_and_p8_precision() {
    for hp in [false, true] {
        assert_eq!(lower(4, -5, true, hp), gave(0, -8));
    }
    assert_eq!(lower(-3, 3, false, false), gave(-2, 2));
    assert_eq!(lower(-3, 3, false, true), gave(-3, 3));
}

#[test]
fn panics_are_told() {
    assert_eq!(project(1, 1, 1, 0), Panicked);
    assert_eq!(project(1, 1, 1, 32), Panicked);
    assert_eq!(project(1, 1, -32, 1), Panicked);
    // Overflow checks are on in each profile.
    assert_eq!(project(i16::MAX, 0, 31, 1), Panicked);
    assert_eq!(lower(0, i16::MAX, true, false), Panicked);
    assert_eq!(negate(i16::MIN, 0), Panicked);
    assert_eq!(negate(-i16::MAX, 1), gave(i16::MAX, -1));
}

#[test]
fn invalid_needs_both_components() {
    assert!(is_invalid(i16::MIN, i16::MIN));
    assert!(!is_invalid(i16::MIN, 0));
    assert!(!is_invalid(0, i16::MIN));
}

#[test]
fn cells_and_records_are_little_endian() {
    let mv = Vector { y: 0x0201, x: -2 };
    let reference = -128;
    assert_eq!(cell([1, 2, 0xfe, 0xff, 0x80]), Cell { mv, reference });

    let bytes = [1, 2, 0xfe, 0xff, 0, 0x80, 0xff, 0x7f, 7, 0xff, 21, 3];
    let second = Vector {
        y: i16::MIN,
        x: i16::MAX,
    };
    let expected = Record {
        mv: [mv, second],
        reference: [7, -1],
        size: 21,
        mf: 3,
    };
    assert_eq!(record(bytes), Some(expected));
}

#[test]
fn sizes_follow_the_names() {
    let sides = |width, height| Some(Size { width, height });
    assert_eq!(size(0), sides(32, 32));
    assert_eq!(size(1), sides(32, 16));
    assert_eq!(size(10), sides(4, 16));
    assert_eq!(size(21), sides(1, 1));
    for code in 22..=255 {
        assert_eq!(size(code), None);
        assert_eq!(record([0, 0, 0, 0, 0, 0, 0, 0, 0, 0, code, 0]), None);
    }
}
