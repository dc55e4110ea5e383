//! Headers that are wrong in one thing each are told from the source.

use crate::prototypes::{exported, in_header, in_rust, with_length, without_lengths};

const SOURCE: &str = "#[unsafe(no_mangle)]
pub extern \"C\" fn spacetime_range(record: &[u64; RECORD_WORDS], cells: &mut [i64; 2], out: &mut [u8]) -> u32
    ensures { true }";

const HEADER: &str = "uint32_t spacetime_range(const uint64_t record[SPACETIME_RECORD_WORDS], int64_t cells[2], uint8_t *out, size_t n_out);";

fn is_held(header: &str) -> bool {
    let source = with_length(exported(SOURCE), "RECORD_WORDS", 17);
    with_length(in_header(header), "SPACETIME_RECORD_WORDS", 17) == source
}

#[test]
fn a_header_like_the_source_is_held() {
    assert!(is_held(HEADER));
    assert!(is_held(&HEADER.replace("SPACETIME_RECORD_WORDS", "17")));
}

#[test]
fn another_length_of_an_array_is_told() {
    assert!(!is_held(&HEADER.replace("cells[2]", "cells[3]")));
    assert!(!is_held(&HEADER.replace("SPACETIME_RECORD_WORDS", "14")));
    assert!(!is_held(&HEADER.replace("cells[2]", "*cells")));
}

#[test]
fn another_type_a_parameter_less_and_another_name_are_told() {
    assert!(!is_held(&HEADER.replace("int64_t cells", "uint64_t cells")));
    assert!(!is_held(&HEADER.replace(", size_t n_out", "")));
    assert!(!is_held(&HEADER.replace("const ", "")));
    assert!(!is_held(&HEADER.replace("spacetime_range", "spacetime_rang")));
}

#[test]
fn rust_declares_a_pointer_for_an_array() {
    let rust = "unsafe extern \"C\" {
    pub fn spacetime_range(record: *const u64, cells: *mut i64, out: *mut u8, out_count: usize) -> u32;
}
";
    assert_eq!(in_rust(rust), without_lengths(&exported(SOURCE)));
}
