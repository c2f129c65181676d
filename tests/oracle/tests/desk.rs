//! Document 02, Q-11: the carton desk's cases, with three cartons unless another number stands there.
use oracle::desk::{lowest, may_print};

#[test]
fn labels_come_in_order() {
    assert_eq!(lowest(3, &[]), Ok(Some(1)));
    assert_eq!((may_print(3, &[], 1), may_print(3, &[], 2)), (Ok(true), Ok(false)));
    assert_eq!((may_print(3, &[0, 1], 3), lowest(3, &[0, 1])), (Ok(true), Ok(Some(3))));
    assert_eq!(may_print(3, &[1, 0], 3), Ok(true)); // a forced print counts
    assert_eq!((lowest(3, &[0, 1, 2]), may_print(3, &[0, 1, 2], 2)), (Ok(None), Ok(true)));
    let all: Vec<u8> = (0..16).collect();
    assert_eq!((lowest(16, &all), may_print(16, &all[..14], 16)), (Ok(None), Ok(false)));
}

#[test]
fn a_void_takes_all_back() {
    assert_eq!((may_print(3, &[0, 1, 3], 2), lowest(3, &[0, 1, 3])), (Ok(false), Ok(Some(1))));
    assert_eq!(may_print(3, &[3, 0], 2), Ok(true));
}

#[test]
fn refusals() {
    assert_eq!((may_print(0, &[], 1), lowest(0, &[])), (Err(3), Err(3)));
    assert_eq!((may_print(17, &[], 1), lowest(17, &[])), (Err(3), Err(3)));
    assert_eq!((may_print(3, &[], 0), may_print(3, &[], 4)), (Err(3), Err(3)));
    assert_eq!((may_print(3, &[4], 1), lowest(3, &[4])), (Err(5), Err(5)));
    assert_eq!((may_print(3, &[0; 64], 1), may_print(3, &[0; 63], 1)), (Err(5), Ok(true)));
    assert_eq!(may_print(3, &[4; 64], 4), Err(3));
}
