//! "Values and types".

use reference::{Kind, Mark, Ownership, Type};

/// The numbers of all bytes that pass.
fn bytes_that(pass: impl Fn(Type) -> bool) -> Vec<u8> {
    (0..=255).filter(|&byte| pass(Type(byte))).collect()
}

#[test]
fn within_is_itself_and_0_and_2_and_3_in_1_and_4_in_5() {
    let wider: [&[u8]; 6] = [&[0], &[0, 1], &[0, 1, 2], &[0, 1, 3], &[0, 4, 5], &[0, 5]];
    for narrow in 0..6 {
        let found = (0..6).filter(|&wide| Kind(narrow).within(Kind(wide)));
        let found: Vec<u8> = found.collect();
        assert_eq!(found, wider[usize::from(narrow)], "kind {narrow}");
    }
}

#[test]
fn parameters_take_each_kind_shared_and_owned_and_borrowed_vectors() {
    let allowed = bytes_that(Type::allowed_on_parameter);
    assert_eq!(allowed, [0, 1, 2, 3, 4, 5, 0x13, 0x23]);
}

#[test]
fn registers_take_each_kind_shared_and_owned_vectors() {
    let allowed = bytes_that(Type::allowed_on_register);
    assert_eq!(allowed, [0, 1, 2, 3, 4, 5, 0x13]);
}

#[test]
fn returns_take_kinds_1_2_and_3_shared_and_owned_vectors() {
    let allowed = bytes_that(Type::allowed_on_return);
    assert_eq!(allowed, [1, 2, 3, 0x13]);
}

#[test]
fn type_byte_is_kind_and_16_times_ownership() {
    assert_eq!(Kind::ALL, [0, 1, 2, 3, 4, 5].map(Kind));
    let shared = Kind::ALL.map(Type::shared);
    assert_eq!(shared, [0, 1, 2, 3, 4, 5].map(Type));
    let named = [Type::ANY, Type::VALUE, Type::INTEGER, Type::VECTOR];
    assert_eq!(named, [0, 1, 2, 3].map(Type));
    assert_eq!([Type::OWNED, Type::BORROWED], [0x13, 0x23].map(Type));
    let byte = Type(0x25);
    assert_eq!((byte.kind(), byte.ownership()), (Kind(5), Ownership(2)));
}

#[test]
fn a_promise_is_of_kind_4_or_5_by_its_blocks_mark() {
    assert_eq!(Mark(0).promise(), Kind(4));
    assert_eq!(Mark(1).promise(), Kind(5));
}
