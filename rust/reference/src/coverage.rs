//! How often generated cases reach what they should reach.

use std::collections::BTreeMap;
use std::fmt;

use crate::compare::{first_number, Operation, Reply};
use crate::content::{Assignment, Content, Match, Subject};
use crate::device::{Device, Place, EVENT_DEVICE, NO_PLACE};
use crate::engine::{
    devices_tried, feature_of, has_parent_keys, holds, is_closed, matched_place, Runner,
};
use crate::generate::Case;
use crate::key::{Key, Operator};
use crate::lines::lines;
use crate::outcome::Outcome;
use crate::program::{program_holds, result_holds};
use crate::rules::{self, Pair, Rule};
use crate::sheet::Sheet;
use crate::template::{Piece, Template};

#[derive(Clone, Debug, Default)]
pub struct Coverage {
    pub cases: u64,
    /// By operation and number; the number 0 is acceptance.
    pub answers: BTreeMap<(Operation, u32), u64>,
    /// By shape and number of the first refusal.
    pub shapes: BTreeMap<(String, u32), u64>,
    pub pairs: BTreeMap<(Key, Operator), PairCount>,
    /// Pieces of templates that were substituted.
    pub pieces: BTreeMap<&'static str, u64>,
    pub facts: BTreeMap<Fact, u64>,
}

/// How often a pair in a visited rule took effect (a match held, an assignment or a jump
/// took place) or did not.
#[derive(Clone, Copy, Debug, Default, PartialEq, Eq)]
pub struct PairCount {
    pub effective: u64,
    pub without_effect: u64,
}

#[derive(Clone, Copy, Debug, PartialEq, Eq, PartialOrd, Ord)]
pub enum Fact {
    AcceptedRunVisitsRules,
    AcceptedRunSkipsRules,
    AcceptedRunChangesRecord,
    AcceptedRunKeepsRecord,
    RunListHasEntries,
    JumpTaken,
    AssignmentToClosedKey,
    ParentKeysMatchEventDevice,
    ParentKeysMatchParent,
    ParentKeysMatchOnlyApart,
    RuleMatchedOtherwiseAfterIt,
    AbsentJudgedAgainstEmpty,
    PresentAndEmpty,
    TriedSomeDevices,
    TriedAllDevicesInVain,
    TriedNoneForAnotherKey,
    ValueHoldsNewline,
    ValueEndsInBackslash,
    AcceptedTextJoinsLines,
    ProgramStoresOutput,
    ProgramStoresOutputThoughRuleFails,
    FailureHolds,
    SecondProgramAsked,
}

impl Fact {
    pub const ALL: &[Fact] = &[
        Fact::AcceptedRunVisitsRules,
        Fact::AcceptedRunSkipsRules,
        Fact::AcceptedRunChangesRecord,
        Fact::AcceptedRunKeepsRecord,
        Fact::RunListHasEntries,
        Fact::JumpTaken,
        Fact::AssignmentToClosedKey,
        Fact::ParentKeysMatchEventDevice,
        Fact::ParentKeysMatchParent,
        Fact::ParentKeysMatchOnlyApart,
        Fact::RuleMatchedOtherwiseAfterIt,
        Fact::AbsentJudgedAgainstEmpty,
        Fact::PresentAndEmpty,
        Fact::TriedSomeDevices,
        Fact::TriedAllDevicesInVain,
        Fact::TriedNoneForAnotherKey,
        Fact::ValueHoldsNewline,
        Fact::ValueEndsInBackslash,
        Fact::AcceptedTextJoinsLines,
        Fact::ProgramStoresOutput,
        Fact::ProgramStoresOutputThoughRuleFails,
        Fact::FailureHolds,
        Fact::SecondProgramAsked,
    ];
}

pub const PIECES: [&str; 11] = [
    "written", "kernel", "number", "devpath", "id", "driver", "attr", "env", "major", "minor",
    "result",
];

impl Coverage {
    pub fn number_count(&self, number: u32) -> u64 {
        self.answers
            .iter()
            .filter(|((_, answered), _)| *answered == number)
            .map(|(_, count)| count)
            .sum()
    }

    pub fn see(&mut self, case: &Case, replies: &[Reply]) {
        self.cases += 1;
        for reply in replies {
            let key = (reply.operation, reply.number());
            *self.answers.entry(key).or_default() += 1;
        }
        let shape = (case.shape.clone(), first_number(replies));
        *self.shapes.entry(shape).or_default() += 1;
        self.follow_run(case, replies);
    }

    fn fact(&mut self, fact: Fact) {
        *self.facts.entry(fact).or_default() += 1;
    }

    fn fact_if(&mut self, condition: bool, fact: Fact) {
        if condition {
            self.fact(fact);
        }
    }

    /// Runs the case once more, step by step.
    fn follow_run(&mut self, case: &Case, replies: &[Reply]) {
        let Ok(rules) = rules::read(&case.text) else {
            return;
        };
        let joins_lines = lines(&case.text)
            .iter()
            .any(|line| case.text[line.span.clone()].contains(&b'\n'));
        self.fact_if(joins_lines, Fact::AcceptedTextJoinsLines);
        let Some(device) = Device::decode(&case.device) else {
            return;
        };
        let Some(outcome) = Outcome::decode(&case.outcome, device.chain.len()) else {
            return;
        };
        let Some(sheet) = Sheet::decode(&case.sheet) else {
            return;
        };
        let mut runner = Runner::new(&rules, &device, &sheet, outcome);
        while let Some(rule) = runner.next_rule() {
            self.see_rule(rule, &device, &sheet, runner.outcome());
            let matched = matched_place(rule, &device, runner.outcome());
            if runner.step(rule).is_err() {
                break;
            }
            let matched_after = matched_place(rule, &device, runner.outcome());
            self.fact_if(matched != matched_after, Fact::RuleMatchedOtherwiseAfterIt);
        }
        for run in &runner.outcome().runs {
            self.see_template(&run.template);
        }
        self.see_replies(case, replies, rules.len());
    }

    fn see_replies(&mut self, case: &Case, replies: &[Reply], rule_count: usize) {
        for reply in replies.iter().filter(|reply| reply.number() == 0) {
            match reply.operation {
                Operation::Run => {
                    let visited = reply.visited() as usize;
                    let is_changed = reply.record() != case.outcome;
                    self.fact_if(visited > 0, Fact::AcceptedRunVisitsRules);
                    self.fact_if(visited < rule_count, Fact::AcceptedRunSkipsRules);
                    self.fact_if(is_changed, Fact::AcceptedRunChangesRecord);
                    self.fact_if(!is_changed, Fact::AcceptedRunKeepsRecord);
                }
                Operation::CloseAfterRun => {
                    self.fact_if(reply.record().len() > 1, Fact::RunListHasEntries);
                }
                _ => {}
            }
        }
    }

    fn see_rule(&mut self, rule: &Rule, device: &Device, sheet: &Sheet, outcome: &Outcome) {
        let matched = matched_place(rule, device, outcome);
        let each_holds = rule
            .pairs
            .iter()
            .all(|pair| pair_holds(pair, device, outcome));
        match matched {
            Some(NO_PLACE) => {}
            Some(EVENT_DEVICE) => self.fact(Fact::ParentKeysMatchEventDevice),
            Some(_) => self.fact(Fact::ParentKeysMatchParent),
            None => self.fact_if(each_holds, Fact::ParentKeysMatchOnlyApart),
        }
        self.see_search(rule, device, outcome);
        let matches = self.see_answers(rule, matched, device, sheet, outcome);
        self.fact_if(matches && rule.jump.is_some(), Fact::JumpTaken);
        for (_, content) in rule.matches() {
            self.see_features(content, device);
        }
        for pair in &rule.pairs {
            self.fact_if(pair.value.contains(&b'\n'), Fact::ValueHoldsNewline);
            self.fact_if(pair.value.ends_with(b"\\"), Fact::ValueEndsInBackslash);
            let takes_effect = match &pair.content {
                Content::Match(_) => pair_holds(pair, device, outcome),
                Content::Program(_) | Content::Result(_) => continue,
                _ if !matches => false,
                Content::Assignment(assignment) => self.see_assignment(assignment, outcome),
                Content::Label(_) | Content::Goto(_) => true,
            };
            self.count_pair(pair, takes_effect);
        }
    }

    fn count_pair(&mut self, pair: &Pair, takes_effect: bool) {
        let count = self.pairs.entry((pair.key, pair.operator)).or_default();
        if takes_effect {
            count.effective += 1;
        } else {
            count.without_effect += 1;
        }
    }

    /// Looks at PROGRAM and RESULT; gives whether the rule matches.
    fn see_answers(
        &mut self,
        rule: &Rule,
        matched: Option<Place>,
        device: &Device,
        sheet: &Sheet,
        outcome: &Outcome,
    ) -> bool {
        let mut after = outcome.clone();
        let mut matches = matched.is_some();
        let mut asked = 0;
        for pair in &rule.pairs {
            let Content::Program(command) = &pair.content else {
                continue;
            };
            if let (Some(matched), true) = (matched, matches) {
                self.see_template(command);
                let answer =
                    program_holds(pair.operator, command, matched, device, sheet, &mut after);
                matches = answer == Ok(true);
                asked += 1;
                let is_unequal = pair.operator == Operator::Unequal;
                self.fact_if(matches && is_unequal, Fact::FailureHolds);
            }
            self.count_pair(pair, matches);
        }
        for pair in &rule.pairs {
            if let Content::Result(pattern) = &pair.content {
                matches &= result_holds(pair.operator, pattern, &after);
                self.count_pair(pair, matches);
            }
        }
        let is_stored = after.output != outcome.output;
        self.fact_if(asked > 1, Fact::SecondProgramAsked);
        self.fact_if(is_stored, Fact::ProgramStoresOutput);
        self.fact_if(
            is_stored && !matches,
            Fact::ProgramStoresOutputThoughRuleFails,
        );
        matches
    }

    fn see_search(&mut self, rule: &Rule, device: &Device, outcome: &Outcome) {
        if !has_parent_keys(rule) {
            return;
        }
        let matched = matched_place(rule, device, outcome);
        let fact = match (devices_tried(rule, device, outcome), matched) {
            (0, _) => Fact::TriedNoneForAnotherKey,
            (_, None) => Fact::TriedAllDevicesInVain,
            (_, Some(_)) => Fact::TriedSomeDevices,
        };
        self.fact(fact);
    }

    /// Looks for attributes and drivers that are absent or empty, where that makes a difference.
    fn see_features(&mut self, content: &Match, device: &Device) {
        let (Subject::OfEventDevice(feature) | Subject::OfChain(feature)) = &content.subject else {
            return;
        };
        if !content.pattern.matches(b"") {
            return;
        }
        for device in &device.chain {
            match feature_of(device, feature) {
                None => self.fact(Fact::AbsentJudgedAgainstEmpty),
                Some(text) => self.fact_if(text.is_empty(), Fact::PresentAndEmpty),
            }
            if matches!(content.subject, Subject::OfEventDevice(_)) {
                break;
            }
        }
    }

    /// Whether the assignment of a rule that matched is carried out.
    fn see_assignment(&mut self, assignment: &Assignment, outcome: &Outcome) -> bool {
        if is_closed(assignment, outcome) {
            self.fact(Fact::AssignmentToClosedKey);
            return false;
        }
        if let Assignment::Links(template)
        | Assignment::Owner(template)
        | Assignment::Group(template)
        | Assignment::Mode(template) = assignment
        {
            self.see_template(template);
        }
        true
    }

    fn see_template(&mut self, template: &Template) {
        for piece in template.pieces() {
            *self.pieces.entry(piece_name(piece)).or_default() += 1;
        }
    }
}

/// Whether a match holds, at some device of the chain if it is a parent key.
fn pair_holds(pair: &Pair, device: &Device, outcome: &Outcome) -> bool {
    match &pair.content {
        Content::Match(content) => (EVENT_DEVICE..=device.chain.len())
            .any(|place| holds(pair.operator, content, place, device, outcome)),
        _ => true,
    }
}

fn piece_name(piece: &Piece) -> &'static str {
    match piece {
        Piece::Written(_) => "written",
        Piece::Kernel => "kernel",
        Piece::Number => "number",
        Piece::Devpath => "devpath",
        Piece::Id => "id",
        Piece::Driver => "driver",
        Piece::Attr(_) => "attr",
        Piece::Env(_) => "env",
        Piece::Major => "major",
        Piece::Minor => "minor",
        Piece::Result => "result",
    }
}

impl fmt::Display for Coverage {
    fn fmt(&self, f: &mut fmt::Formatter) -> fmt::Result {
        writeln!(f, "{} cases", self.cases)?;
        writeln!(f, "\nanswers by operation and number")?;
        for ((operation, number), count) in &self.answers {
            let operation = format!("{operation:?}");
            writeln!(f, "  {operation:<14} {number:>2} {count:>9}")?;
        }
        writeln!(f, "\npairs in visited rules: with effect, without")?;
        for ((key, operator), count) in &self.pairs {
            let key = format!("{key:?}").to_uppercase();
            let operator = operator.symbol();
            let PairCount {
                effective,
                without_effect,
            } = count;
            writeln!(
                f,
                "  {key:<11} {operator:<2} {effective:>9} {without_effect:>9}"
            )?;
        }
        writeln!(f, "\ntemplate pieces substituted")?;
        for (piece, count) in &self.pieces {
            writeln!(f, "  {piece:<14} {count:>9}")?;
        }
        writeln!(f, "\nfacts")?;
        for (fact, count) in &self.facts {
            let fact = format!("{fact:?}");
            writeln!(f, "  {fact:<30} {count:>9}")?;
        }
        writeln!(f, "\nshapes: number of the first refusal, count")?;
        for ((shape, number), count) in &self.shapes {
            writeln!(f, "  {shape:<44} {number:>2} {count:>9}")?;
        }
        Ok(())
    }
}
