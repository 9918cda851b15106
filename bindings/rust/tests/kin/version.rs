//! The package's version is the header's.

const HEADER: &str = include_str!("../../../../include/kin.h");

#[test]
fn the_version_is_the_header_s() {
    let line = format!("#define KIN_VERSION \"{}\"", kin::VERSION);
    assert!(HEADER.lines().any(|told| told == line), "no line {line}");
}
