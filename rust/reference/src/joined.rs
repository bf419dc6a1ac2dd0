//! What document 01 says of joined texts, checked of an engine.

use crate::compare::{check_reply, run_reply, Engine, Reply};
use crate::generate::joins::{CutText, JoinList};
use crate::generate::{Case, Extra, Rooms};
use crate::rules::{self, Rule};
use crate::sizes;

/// A run for the device of the list and with its sheet.
pub fn run_of(engine: &dyn Engine, list: &JoinList, text: &[u8], outcome: &[u8]) -> Reply {
    let JoinList { device, sheet, .. } = list;
    run_reply(engine, text, device, outcome, sheet, sizes::OUTCOME_TARGET)
}

/// The runs of the texts one after the other; a refused one is the last.
pub fn runs_in_a_row(engine: &dyn Engine, list: &JoinList) -> Vec<Reply> {
    let mut runs = Vec::new();
    let mut outcome = list.outcome.clone();
    for text in &list.texts {
        let run = run_of(engine, list, text, &outcome);
        outcome = run.record().to_vec();
        let is_refused = run.number() != 0;
        runs.push(run);
        if is_refused {
            break;
        }
    }
    runs
}

/// Checks that the join is accepted and that its run is as the runs of the texts in a row.
pub fn check_list(engine: &dyn Engine, list: &JoinList) -> Result<(), String> {
    let join = list.texts.concat();
    let check = check_reply(engine, &join).answer;
    if check != [0; 8] {
        return Err(format!("the join is refused: {check:?}"));
    }
    let of_join = run_of(engine, list, &join, &list.outcome);
    let expected = expected_of_join(&runs_in_a_row(engine, list), list);
    let Some(expected) = expected else {
        return Err(String::from("there is no run"));
    };
    if of_join == expected {
        Ok(())
    } else {
        Err(format!(
            "the join gives {:?}, its texts {:?}",
            of_join.answer, expected.answer
        ))
    }
}

fn expected_of_join(runs: &[Reply], list: &JoinList) -> Option<Reply> {
    let mut expected = runs.last()?.clone();
    if expected.number() == 0 {
        expected.answer[2] = runs.iter().map(Reply::visited).sum();
        expected.answer[4] = runs.iter().map(Reply::tried).sum();
    } else {
        let texts_before = &list.texts[..runs.len() - 1];
        expected.answer[1] += newlines(&texts_before.concat());
    }
    Some(expected)
}

fn newlines(text: &[u8]) -> u32 {
    text.iter().filter(|&&byte| byte == b'\n').count() as u32
}

/// Checks that the pieces are all accepted exactly when no jump crosses a cut.
pub fn check_cuts(engine: &dyn Engine, cut_text: &CutText) -> Result<(), String> {
    let Ok(rules) = rules::read(&cut_text.text) else {
        return Err(String::from("the text is refused"));
    };
    let all_accepted = cut_text
        .pieces()
        .iter()
        .all(|piece| check_reply(engine, piece).answer == [0; 8]);
    let crossing = crossing_jump(&rules, cut_text);
    match (all_accepted, crossing) {
        (true, Some(line)) => Err(format!(
            "all pieces are accepted, but the jump of line {line} crosses a cut"
        )),
        (false, None) => Err(String::from(
            "a piece is refused, but no jump crosses a cut",
        )),
        _ => Ok(()),
    }
}

/// The line of the first GOTO that crosses a cut.
pub fn crossing_jump(rules: &[Rule], cut_text: &CutText) -> Option<u32> {
    let crosses = |rule: &&Rule| {
        let Some(target) = rule.jump else {
            return false;
        };
        cut_text.cuts.iter().any(|&cut| {
            let last_line_before = newlines(&cut_text.text[..cut]);
            rule.line <= last_line_before && last_line_before < rules[target].line
        })
    };
    rules.iter().find(crosses).map(|rule| rule.line)
}

fn case(shape: &str, text: &[u8], list: &JoinList, outcome: &[u8]) -> Case {
    Case {
        shape: shape.to_string(),
        text: text.to_vec(),
        device: list.device.clone(),
        outcome: outcome.to_vec(),
        sheet: list.sheet.clone(),
        rooms: Rooms {
            fresh: sizes::OUTCOME_TARGET,
            run: sizes::OUTCOME_TARGET,
            close: sizes::RUN_LIST_TARGET,
        },
        extra: Extra::Nothing,
    }
}

pub fn case_of_join(list: &JoinList) -> Case {
    case("join", &list.texts.concat(), list, &list.outcome)
}

pub fn case_of_cuts(cut_text: &CutText) -> Case {
    let nothing = JoinList::default();
    case("cut text", &cut_text.text, &nothing, &nothing.outcome)
}

/// The cases of all runs that a list is about: those in a row, then that of the join.
pub fn cases_of(engine: &dyn Engine, list: &JoinList) -> Vec<Case> {
    let runs = runs_in_a_row(engine, list);
    let starts = [&list.outcome[..]]
        .into_iter()
        .chain(runs.iter().map(Reply::record));
    let mut cases: Vec<Case> = list.texts[..runs.len()]
        .iter()
        .zip(starts)
        .map(|(text, start)| case("joined text", text, list, start))
        .collect();
    cases.push(case_of_join(list));
    cases
}
