//! PROGRAM and RESULT: what a rule asks of the answer sheet.

use crate::device::{Device, Place};
use crate::key::Operator;
use crate::outcome::Outcome;
use crate::pattern::Pattern;
use crate::refusal::Fault;
use crate::rules::Rule;
use crate::sheet::Sheet;
use crate::template::{Inserted, Sources, Template};

/// Asks the PROGRAM keys of a rule whose other keys hold, up to the first that does not hold,
/// then judges its RESULT keys. What the programs said stays in the outcome.
pub fn programs_and_results_hold(
    rule: &Rule,
    matched: Place,
    device: &Device,
    sheet: &Sheet,
    outcome: &mut Outcome,
) -> Result<bool, Fault> {
    for (operator, command) in rule.programs() {
        if !program_holds(operator, command, matched, device, sheet, outcome)? {
            return Ok(false);
        }
    }
    let mut results = rule.results();
    Ok(results.all(|(operator, pattern)| result_holds(operator, pattern, outcome)))
}

/// Asks one program; a success stores its output.
pub fn program_holds(
    operator: Operator,
    command: &Template,
    matched: Place,
    device: &Device,
    sheet: &Sheet,
    outcome: &mut Outcome,
) -> Result<bool, Fault> {
    let sources = Sources {
        device,
        properties: &outcome.properties,
        output: &outcome.output,
        matched,
    };
    let command = command
        .substitute(&sources, Inserted::AsItIs)
        .ok_or(Fault::Substituted)?;
    let entry = sheet.entry(&command).ok_or(Fault::Command)?;
    if entry.success {
        outcome.output = entry.output_without_trailing_newlines().to_vec();
    }
    Ok(entry.success == (operator != Operator::Unequal))
}

pub fn result_holds(operator: Operator, pattern: &Pattern, outcome: &Outcome) -> bool {
    pattern.matches(&outcome.output) == (operator == Operator::Equal)
}
