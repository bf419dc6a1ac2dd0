//! The order of assignments in a rule (E1), rules that are skipped (E17, E23).

use recordings::escape::escape;

use super::Found;
use crate::syntax::template::What;
use crate::syntax::{Key, Operator, Pair, Rule};

pub fn judge(rule: &Rule, found: &mut Found) {
    for (place, pair) in rule.pairs.iter().enumerate() {
        let (before, after) = (&rule.pairs[..place], &rule.pairs[place + 1..]);
        judge_properties(rule, pair, before, after, found);
        judge_escape(rule, pair, before, found);
        judge_builtin(rule, pair, before, found);
    }
    judge_skipped(rule, found);
}

/// Assignments of ENV are made behind those of OWNER, GROUP and MODE and before SYMLINK there.
fn judge_properties(rule: &Rule, pair: &Pair, before: &[Pair], after: &[Pair], found: &mut Found) {
    let assigns = |pairs: &[Pair], name: &[u8]| {
        let mut pairs = pairs.iter();
        pairs.any(|pair| pair.assigns(Key::Env) && pair.argument == name)
    };
    for piece in pair.pieces() {
        if piece.what != What::Env {
            continue;
        }
        let name = escape(piece.name);
        let text = match pair.key {
            Key::Symlink if assigns(after, piece.name) => format!(
                "here this is ENV{{{name}}} as it was before this rule; \
                 udev assigns ENV before SYMLINK"
            ),
            Key::Owner | Key::Group | Key::Mode if assigns(before, piece.name) => format!(
                "here this is ENV{{{name}}} as just assigned; \
                 udev assigns {} before ENV",
                pair.key.name()
            ),
            _ => continue,
        };
        found.add(1, rule, &pair.value.place(&piece.span), text);
    }
}

fn sets_escape(pair: &Pair) -> bool {
    pair.key == Key::Options && pair.value.bytes.starts_with(b"string_escape=")
}

fn judge_escape(rule: &Rule, pair: &Pair, before: &[Pair], found: &mut Found) {
    let is_touched = |pair: &Pair| pair.assigns(Key::Symlink) || pair.assigns(Key::Env);
    if sets_escape(pair) && before.iter().any(is_touched) {
        let text = "here string_escape counts from this place on; \
                    in udev it counts for the whole rule";
        found.add(1, rule, &pair.span, text);
    }
}

fn is_builtin(pair: &Pair) -> bool {
    pair.key == Key::Run && pair.argument == b"builtin"
}

fn judge_builtin(rule: &Rule, pair: &Pair, before: &[Pair], found: &mut Found) {
    let is_program = |pair: &Pair| pair.key == Key::Run && !is_builtin(pair);
    if is_builtin(pair) && before.iter().any(is_program) {
        let text = "here this comes behind the program before it; \
                    udev puts the builtins of a rule first";
        found.add(1, rule, &pair.span, text);
    }
}

fn judge_skipped(rule: &Rule, found: &mut Found) {
    let is_for_node =
        |pair: &Pair| matches!(pair.key, Key::Symlink | Key::Owner | Key::Group | Key::Mode);
    // A program's output stays, so a rule that asks one is kept.
    let has_effect = |pair: &&Pair| !pair.is_match() || pair.key == Key::Program;
    let mut others = rule.pairs.iter().filter(has_effect);
    let Some(first) = others.next() else {
        let span = rule.pairs[0].span.start..rule.pairs[rule.pairs.len() - 1].span.end;
        let text = "here the rule is visited and does nothing; udev drops it with a warning";
        found.add(23, rule, &span, text);
        return;
    };
    let is_remove = |pair: &&Pair| {
        let is_equal = pair.operator == Operator::Equal;
        pair.key == Key::Action && is_equal && pair.value.bytes == b"remove"
    };
    let action = rule.pairs.iter().find(is_remove);
    if let (Some(action), true) = (action, is_for_node(first) && others.all(is_for_node)) {
        let text = "here the rule runs on remove; \
                    udev skips a rule of nothing but SYMLINK, OWNER, GROUP and MODE then";
        found.add(17, rule, &action.span, text);
    }
}
