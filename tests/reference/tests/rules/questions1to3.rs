//! Questions 1 to 3: size, heads, kinds and lengths.

use crate::support::refuses_image;
use cases::{image, IDENTITY};

/// The identity with a record after it.
fn then_record(bytes: &[u8]) -> Vec<u8> {
    [&IDENTITY[..], bytes].concat()
}

#[test]
fn question1_image_of_32_768_bytes_passes() {
    refuses_image(&[0; 32_768], 2, 0);
}

#[test]
fn question1_image_of_32_769_bytes_is_at_0() {
    refuses_image(&[0; 32_769], 1, 0);
    refuses_image(&[0; 70_000], 1, 0);
}

#[test]
fn question2_head_cut_short_is_where_that_head_begins() {
    refuses_image(&[0x0B], 2, 0);
    for length in 1..4 {
        refuses_image(&then_record(&[13, 0, 36][..length]), 2, 23);
    }
}

#[test]
fn question2_length_below_4_is_at_its_record() {
    for length in 0..4 {
        refuses_image(&then_record(&[length, 0, 17, 0, 0, 0, 0, 0, 0]), 2, 23);
    }
}

#[test]
fn question2_record_that_ends_past_the_image_is_at_its_record() {
    refuses_image(&then_record(&[10, 0, 36, 0, 0, 0, 0, 0, 0]), 2, 23);
    refuses_image(&then_record(&[9, 1, 36, 0, 0, 0, 0, 0, 0]), 2, 23);
}

#[test]
fn question2_is_put_to_the_whole_image_before_question_3() {
    let mut image = then_record(&[4]);
    image[2] = 99;
    refuses_image(&image, 2, 23);
}

#[test]
fn question3_unknown_kinds() {
    for kind in (0..=0xFFFF).filter(|kind| ![1, 2, 3].contains(kind) && !(17..=36).contains(kind)) {
        let [low, high] = u16::to_le_bytes(kind);
        refuses_image(&then_record(&[6, 0, low, high, 0, 0]), 3, 23);
    }
}

#[test]
fn question3_kind_16_is_unknown_whatever_its_length() {
    for length in 4..20 {
        let mut record = vec![1; length];
        record[..4].copy_from_slice(&[length as u8, 0, 16, 0]);
        refuses_image(&then_record(&record), 3, 23);
    }
}

#[test]
fn question3_high_byte_of_the_kind_counts() {
    let mut image = IDENTITY;
    image[3] = 1;
    refuses_image(&image, 3, 0);
}

#[test]
fn question3_length_other_than_the_fields_make_for_each_kind() {
    let lengths = [
        (1, 11),
        (2, 7),
        (3, 5),
        (17, 6),
        (18, 6),
        (19, 6),
        (20, 7),
        (21, 6),
        (22, 7),
        (23, 7),
        (24, 8),
        (25, 8),
        (26, 6),
        (27, 6),
        (28, 6),
        (29, 6),
        (30, 6),
        (31, 7),
        (32, 7),
        (33, 9),
        (34, 11),
        (35, 6),
        (36, 13),
    ];
    for (kind, right) in lengths {
        // Every field is 1, every count too.
        for length in (4..20).filter(|&length| length != right) {
            let mut record = vec![1; length];
            record[..4].copy_from_slice(&[length as u8, 0, kind, 0]);
            refuses_image(&then_record(&record), 3, 23);
        }
        let mut record = vec![1; right];
        record[..4].copy_from_slice(&[right as u8, 0, kind, 0]);
        assert!(reference::questions::records(&then_record(&record)).is_some());
    }
}

#[test]
fn question3_record_too_short_for_its_own_count() {
    for kind in [1, 20, 33, 34] {
        refuses_image(&then_record(&[4, 0, kind, 0]), 3, 23);
        refuses_image(&then_record(&[5, 0, kind, 0, 0]), 3, 23);
    }
}

#[test]
fn question3_count_that_does_not_make_the_length() {
    for (kind, body) in [
        (20, vec![0, 2, 0]),
        (33, vec![0, 0, 0, 0, 0]),
        (34, vec![0, 0, 0, 2, 1, 2]),
        (1, vec![1, 0, 0, 1, 2, 1]),
    ] {
        let mut record = vec![4 + body.len() as u8, 0, kind, 0];
        record.extend(body);
        refuses_image(&then_record(&record), 3, 23);
    }
}

#[test]
fn question3_is_put_to_the_whole_image_before_question_4() {
    let mut image = image("block 0 mark 9 -> r0");
    image.extend([4, 0, 4, 0]);
    refuses_image(&image, 3, 7);
}
