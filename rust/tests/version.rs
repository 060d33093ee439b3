//! One version: of the crate, of the C header, of the library that is linked.

const HEADER: &str = include_str!("../../include/hca_frame.h");

/// The number behind a `#define` of the header.
fn defined(name: &str) -> &'static str {
    let mut lines = HEADER.lines().filter_map(|line| line.strip_prefix("#define ")?.strip_prefix(name)?.strip_prefix(' '));
    lines.next().unwrap_or_else(|| panic!("the header does not define {name}"))
}

#[test]
fn header_crate_and_library_have_one_version() {
    let version = env!("CARGO_PKG_VERSION");
    assert_eq!(defined("HCA_VERSION"), format!("\"{version}\""));
    let parts: Vec<u32> = version.split('.').map(|part| part.parse().unwrap()).collect();
    assert!(parts.len() == 3 && parts[1] < 100 && parts[2] < 100);
    let number = 10_000 * parts[0] + 100 * parts[1] + parts[2];
    assert_eq!(defined("HCA_VERSION_NUMBER"), number.to_string());
    assert_eq!(hca_frame::version(), number);
}
