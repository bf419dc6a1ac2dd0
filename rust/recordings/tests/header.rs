//! The sizes of records are those of the library's header.

use recordings::sizes;

#[test]
fn sizes_are_those_of_the_header() {
    let header = include_str!("../../../include/spillfinch.h");
    for (name, size) in [
        ("DEVICE_MOST", sizes::DEVICE_MOST),
        ("CHAIN_MOST", sizes::CHAIN_MOST),
        ("ATTRIBUTES_MOST", sizes::ATTRIBUTES_MOST),
        ("PROPERTIES_MOST", sizes::PROPERTIES_MOST),
        ("LINKS_MOST", sizes::LINKS_MOST),
        ("TAGS_MOST", sizes::TAGS_MOST),
        ("RUNS_MOST", sizes::RUNS_MOST),
        ("OUTPUT_MOST", sizes::OUTPUT_MOST),
        ("SHEET_MOST", sizes::SHEET_MOST),
        ("REPLIES_MOST", sizes::REPLIES_MOST),
        ("COMMAND_MOST", sizes::COMMAND_MOST),
    ] {
        let definition = format!("#define SPILLFINCH_{name} {size}");
        assert!(header.lines().any(|line| line == definition), "{name}");
    }
}
