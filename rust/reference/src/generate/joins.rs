//! Lists of texts to join, and texts to cut.

use super::rng::Rng;
use super::rules_text;
use super::world::{world, World};
use crate::{lines, operations, rules, sizes};

/// Accepted texts, each but the last empty or ending in a newline, with a device, a starting
/// record and an answer sheet; their join is within the sizes.
#[derive(Clone, Debug, Default)]
pub struct JoinList {
    pub texts: Vec<Vec<u8>>,
    pub device: Vec<u8>,
    pub outcome: Vec<u8>,
    pub sheet: Vec<u8>,
}

/// An accepted text with places to cut it at, each after a newline that joins nothing.
#[derive(Clone, Debug)]
pub struct CutText {
    pub text: Vec<u8>,
    pub cuts: Vec<usize>,
}

pub fn join_list(seed: u64) -> JoinList {
    let rng = &mut Rng::new(seed);
    let world = world(rng);
    let count = rng.between(2, 6);
    let mut texts: Vec<Vec<u8>> = (0..count).map(|_| accepted_text(rng, &world)).collect();
    if rng.percent(1) {
        fill_up(rng, &mut texts);
    }
    if rng.percent(50) {
        remove_last_newline(&mut texts);
    }
    JoinList {
        texts,
        device: world.device.encode(),
        outcome: world.outcome.encode(),
        sheet: world.sheet.encode(),
    }
}

pub fn cut_text(seed: u64) -> CutText {
    let rng = &mut Rng::new(seed);
    let world = world(rng);
    let mut text = Vec::new();
    for _ in 0..rng.between(1, 4) {
        text.extend(accepted_text(rng, &world));
    }
    let cuts_in_100 = rng.pick(&[5, 20, 60]);
    let cuts = lines::lines(&text)
        .iter()
        .map(|line| line.span.end + 1)
        .filter(|&cut| cut <= text.len() && rng.percent(cuts_in_100))
        .collect();
    CutText { text, cuts }
}

impl CutText {
    pub fn pieces(&self) -> Vec<&[u8]> {
        let starts = [0].into_iter().chain(self.cuts.iter().copied());
        let ends = self.cuts.iter().copied().chain([self.text.len()]);
        starts
            .zip(ends)
            .map(|(start, end)| &self.text[start..end])
            .collect()
    }
}

/// An accepted text that is empty or ends in a newline.
pub fn accepted_text(rng: &mut Rng, world: &World) -> Vec<u8> {
    let count = rng.below(6);
    for _ in 0..10 {
        let mut text = rules_text::lines(rng, world, count).join(&b'\n');
        if !text.is_empty() {
            text.push(b'\n');
        }
        if operations::check(&text).number == 0 {
            return text;
        }
    }
    Vec::new()
}

/// Lengthens the first text until the join is as large as it may be.
fn fill_up(rng: &mut Rng, texts: &mut [Vec<u8>]) {
    let rule = b"TAG+=\"a\"\n";
    if rng.percent(50) {
        let count: usize = texts.iter().map(|text| rule_count(text)).sum();
        texts[0].extend(rule.repeat(sizes::RULES - count));
    }
    let length: usize = texts.iter().map(Vec::len).sum();
    let mut missing = sizes::TEXT - length;
    while missing > 0 {
        let line = missing.min(1_000);
        texts[0].extend(vec![b'#'; line - 1]);
        texts[0].push(b'\n');
        missing -= line;
    }
}

fn rule_count(text: &[u8]) -> usize {
    rules::read(text).map_or(0, |rules| rules.len())
}

/// Unless a join would then be open.
fn remove_last_newline(texts: &mut [Vec<u8>]) {
    if let Some(last) = texts.last_mut() {
        let ends_in_newline = last.pop().is_some();
        if ends_in_newline && operations::check(last).number != 0 {
            last.push(b'\n');
        }
    }
}
