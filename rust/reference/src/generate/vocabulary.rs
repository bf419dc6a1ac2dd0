//! The words that generated devices, outcomes and rules share, so that they meet often.

pub const COMPONENTS: &[&[u8]] = &[
    b"devices",
    b"pci0000:00",
    b"usb1",
    b"1-1",
    b"1-1.2",
    b"tty",
    b"block",
    b"host0",
    b"net",
    b"a",
    b"007",
    b"x y",
    b"..",
];

pub const NAMES: &[&[u8]] = &[
    b"ttyUSB0",
    b"ttyS17",
    b"sda",
    b"sda3",
    b"eth0",
    b"1-1:1.0",
    b"loop10",
    b"a",
    b"2",
    b"x y9",
    b"[a]",
    b"\xc3\xa9t\xc3\xa9",
    b".",
];

pub const SUBSYSTEMS: &[&[u8]] = &[b"tty", b"usb", b"block", b"net", b"scsi", b""];

pub const DRIVERS: &[&[u8]] = &[b"usb", b"ftdi_sio", b"sd", b"cdc_acm", b"", b""];

pub const ATTRIBUTE_NAMES: &[&[u8]] = &[
    b"serial",
    b"idVendor",
    b"size",
    b"model",
    b"power/control",
    b"a b",
    b"x",
];

pub const PROPERTY_KEYS: &[&[u8]] = &[
    b"ID_BUS",
    b"ID_MODEL",
    b"ID_SERIAL",
    b"DEVNAME",
    b".LOCAL",
    b"A",
    b"B",
];

/// Values of attributes and properties.
pub const VALUES: &[&[u8]] = &[
    b"RC-0417",
    b"RC-0417 ",
    b"RC-0417  \n",
    b"0403",
    b"6001",
    b"a b",
    b"a  b",
    b" lead",
    b"tail \t",
    b"x\ty",
    b"u\nv",
    b"",
    b" ",
    b"ST/2000",
    b"/dev/sd",
    b"a//b",
    b"..",
    b"root",
    b"0660",
    b"7",
    b"abcdefgh",
    b"*",
    b"[ab]",
    b"a|b",
    b"100%",
    b"$kernel",
    b"%k",
    b"\\x20",
    b"say \"hi\"",
    b"bridge\x01",
    b"it's\x07\r",
    b"tail\\",
    b"\\\"",
    b"]",
    b"-",
    b"!",
    b"b",
    b"d",
    b"e",
    b"\x80\xff",
];

/// Written parts of link templates.
pub const LINK_PARTS: &[&[u8]] = &[
    b"rope/trip",
    b"disk/by-id/",
    b"usb",
    b"a",
    b"b",
    b"a b",
    b" ",
    b"  ",
    b"-",
    b"_",
    b"s:",
    b"x\ty",
    b"/",
    b".",
    b"#+-.:=@_",
    b"\xe4!",
    b"n\nl",
    b"\\",
];

/// Whole link names.
pub const LINKS: &[&[u8]] = &[
    b"a",
    b"b",
    b"a_b",
    b"rope/trip0",
    b"disk/by-id/RC-0417",
    b"usb",
    b"serial-1",
    b"x/y/z",
    b"...",
    b"a.b",
];

pub const TAGS: &[&[u8]] = &[
    b"seat", b"uaccess", b"systemd", b"a", b"b", b"%k", b"a b", b"*", b"t\t\n", b"\\",
];

pub const OWNERS: &[&[u8]] = &[b"root", b"dialout", b"disk", b"u-1_x.y", b"0"];

pub const MODES: &[&[u8]] = &[b"0660", b"660", b"0", b"7775", b"0600", b"44"];

pub const WORLD_WRITABLE_MODES: &[&[u8]] = &[b"0666", b"2", b"003", b"7777"];

pub const LABELS: &[&[u8]] = &[b"end", b"skip", b"next", b"a b", b"*", b"e\n", b"\\"];

/// Well formed patterns that are easily read wrongly.
pub const ODD_PATTERNS: &[&[u8]] = &[
    b"",
    b"|",
    b"*|",
    b"a||b",
    b"|a",
    b"abc|x*",
    b"*",
    b"**",
    b"?",
    b"?*",
    b"?*?",
    b"[]]",
    b"[!]]",
    b"[]a]",
    b"[]-a]",
    b"[a-]",
    b"[-a]",
    b"[!-a]",
    b"[!a-]",
    b"[--0]",
    b"[---]",
    b"[a-c-e]",
    b"[a-c--]",
    b"[a-a]",
    b"[!!]",
    b"[^a]*",
    b"[!^]*",
    b"[a!]",
    b"[[]*",
    b"[*?]*",
    b"[ -~]*",
    b"[\x80-\xff]*",
    b"[!0-9]",
    b"[0-9]*",
    b"*[0-9]",
    b"*[!0-9]",
    b"]",
    b"-",
    b"!",
    b"\\*",
    b"a-c",
    b"tty[SR]*",
    b"RC-0417 ",
    b"RC-0417  ",
    b"RC-0417|x ",
    b"*\t",
];
