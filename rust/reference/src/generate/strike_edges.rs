//! Strikes at the limits of their rooms and of the text.

use super::edge_cases::{long_line, many_rules, of_text, tight_text};
use super::edges::{edge, Edge};
use super::rng::Rng;
use super::{Case, Extra};

/// The numbers are those of the text's run where that is refused.
pub const STRIKE_EDGES: &[Edge] = &[
    edge("nothing to strike", 0, |rng| {
        of_strike(*b"# c\nTAG+=\"a\"\\\n\n", 32_768, 32_768, rng)
    }),
    edge("full text without a strike", 0, |rng| {
        of_strike(tight_text(32_768), 32_768, 32_768, rng)
    }),
    edge("16,384 strikes", 11, |rng| {
        of_strike(b"x\n".repeat(16_384), 32_768, 32_768, rng)
    }),
    edge("strikes on lines of no end", 11, |rng| {
        of_strike(
            [b"\n".repeat(32_767), b"x".to_vec()].concat(),
            40_000,
            40_001,
            rng,
        )
    }),
    edge("everything struck at once", 10, |rng| {
        of_strike(vec![b'x'; 32_768], 32_768, 32_768, rng)
    }),
    edge("open join over the whole text", 20, |rng| {
        of_strike(b"\\\n".repeat(16_384), 32_768, 32_768, rng)
    }),
    edge("label struck as the 513th rule", 11, |rng| {
        let jump = b"\nGOTO=\"l\"\nLABEL=\"l\"\n".to_vec();
        let text = [b"bad\n".to_vec(), many_rules(511), jump].concat();
        of_strike(text, 32_768, 32_768, rng)
    }),
    edge("jumps that fall one by one", 19, |rng| {
        let jumps = (0..512).map(|rule| format!("LABEL=\"{rule}\",GOTO=\"{}\"\n", rule + 1));
        of_strike(jumps.collect::<String>(), 32_768, 32_768, rng)
    }),
    edge("line of 1,025 and its neighbours", 10, |rng| {
        let line = long_line(1_025);
        let text = [
            b"TAG+=\"a\"\n".to_vec(),
            line,
            b"\n#\\\nTAG+=\"b\"".to_vec(),
        ]
        .concat();
        of_strike(text, 32_768, 32_768, rng)
    }),
    edge("strike of a text of 32,769", 2, |rng| {
        of_strike(b"\n".repeat(32_769), 32_768, 32_768, rng)
    }),
    edge("strike with a byte less", 1, |rng| {
        of_strike(*b"TAG+=\"a\"", 32_767, 32_768, rng)
    }),
    edge("strike with a number less", 1, |rng| {
        of_strike(*b"TAG+=\"a\"", 32_768, 32_767, rng)
    }),
    edge("strike without any room", 1, |rng| {
        of_strike(*b"TAG+=\"a\"", 0, 0, rng)
    }),
];

fn of_strike(text: impl Into<Vec<u8>>, room: usize, strikes: usize, rng: &mut Rng) -> Case {
    let mut case = of_text(text.into(), rng);
    case.extra = Extra::Strike { room, strikes };
    case
}
