//! The worked values of document 01, and the domain's edges.

use jaskkovir::leaves::distance;
use jaskkovir::leaves::lower;
use jaskkovir::leaves::project;
use jaskkovir::leaves::Vector;

fn v(y: i16, x: i16) -> Vector {
    Vector { y, x }
}

#[test]
fn p1_to_p5_projection() {
    assert_eq!(project(v(100, -100), 3, 2), Some(v(150, -150)));
    assert_eq!(project(v(1, -1), 1, 2), Some(v(1, -1)));
    assert_eq!(project(v(1, 0), 1, 3), Some(v(0, 0)));
    assert_eq!(project(v(3, 0), 1, 6), Some(v(0, 0)));
    assert_eq!(project(v(4095, -4095), 31, 1), Some(v(16_383, -16_383)));
}

#[test]
fn p6_distance() {
    assert_eq!(distance(3, 1, 7), Some(2));
    assert_eq!(distance(3, 0, 4), Some(-4));
    assert_eq!(distance(3, 4, 0), Some(-4));
}

#[test]
fn p7_and_p8_precision() {
    assert_eq!(lower(v(4, -5), true, false), Some(v(0, -8)));
    assert_eq!(lower(v(-3, 0), false, false), Some(v(-2, 0)));
}

#[test]
fn outside_the_domain_there_is_no_answer() {
    assert_eq!(project(v(4096, 0), 1, 1), None);
    assert_eq!(project(v(0, i16::MIN), 1, 1), None);
    assert_eq!(project(v(0, 0), 32, 1), None);
    assert_eq!(project(v(0, 0), -32, 1), None);
    assert_eq!(project(v(0, 0), 1, 0), None);
    assert_eq!(project(v(0, 0), 1, 32), None);
    assert_eq!(lower(v(16_385, 0), false, true), None);
    assert_eq!(lower(v(0, -16_385), true, true), None);
    assert_eq!(distance(9, 0, 0), None);
    assert_eq!(distance(0, 1, 0), None);
    assert_eq!(distance(8, 0, 256), None);
    assert_eq!(distance(u32::MAX, 0, 0), None);
}
