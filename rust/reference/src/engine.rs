//! Running rules: matching, then assigning, then jumping.

use crate::content::{Assignment, Feature, Match, StringEscape, Subject};
use crate::device::{ChainDevice, Device, Place, EVENT_DEVICE, NO_PLACE};
use crate::key::Operator;
use crate::link::{cleaned, is_sound_link, split_names};
use crate::outcome::{is_sound_owner_or_group, lets_others_write, Outcome, Run};
use crate::pattern::Pattern;
use crate::program::programs_and_results_hold;
use crate::property::{value_of, Property};
use crate::refusal::{Fault, Refusal};
use crate::rules::Rule;
use crate::sheet::Sheet;
use crate::sizes;
use crate::template::{Inserted, Sources, Template};

/// A run in progress.
pub struct Runner<'a> {
    rules: &'a [Rule],
    device: &'a Device,
    sheet: &'a Sheet,
    outcome: Outcome,
    next: usize,
    visited: u32,
    tried: u32,
}

/// What a run leaves, with its counts.
#[derive(Clone, Debug, PartialEq, Eq)]
pub struct Finished {
    pub visited: u32,
    pub tried: u32,
    pub outcome: Outcome,
}

impl<'a> Runner<'a> {
    pub fn new(rules: &'a [Rule], device: &'a Device, sheet: &'a Sheet, outcome: Outcome) -> Self {
        Runner {
            rules,
            device,
            sheet,
            outcome,
            next: 0,
            visited: 0,
            tried: 0,
        }
    }

    /// The rule that runs next, or `None` at the end.
    pub fn next_rule(&self) -> Option<&'a Rule> {
        self.rules.get(self.next)
    }

    pub fn outcome(&self) -> &Outcome {
        &self.outcome
    }

    /// Runs one rule.
    pub fn step(&mut self, rule: &Rule) -> Result<(), Refusal> {
        self.visited += 1;
        self.tried += devices_tried(rule, self.device, &self.outcome) as u32;
        self.next += 1;
        let at_line = |fault: Fault| fault.at_line(rule.line);
        if let Some(matched) = matched_place(rule, self.device, &self.outcome) {
            if self.answers_hold(rule, matched).map_err(at_line)? {
                self.assign_all(rule, matched).map_err(at_line)?;
                self.next = rule.jump.unwrap_or(self.next);
            }
        }
        Ok(())
    }

    /// Whether the keys hold that the sheet decides.
    fn answers_hold(&mut self, rule: &Rule, matched: Place) -> Result<bool, Fault> {
        programs_and_results_hold(rule, matched, self.device, self.sheet, &mut self.outcome)
    }

    fn assign_all(&mut self, rule: &Rule, matched: Place) -> Result<(), Fault> {
        let mut assigner = Assigner {
            device: self.device,
            matched,
            string_escape: StringEscape::Unset,
            outcome: &mut self.outcome,
        };
        assigner.assign_all(rule)
    }

    /// Runs the rules that are left.
    pub fn finish(mut self) -> Result<Finished, Refusal> {
        while let Some(rule) = self.next_rule() {
            self.step(rule)?;
        }
        Ok(Finished {
            visited: self.visited,
            tried: self.tried,
            outcome: self.outcome,
        })
    }
}

/// The place that the parent keys matched (none without parent keys), or `None` if a match key
/// other than PROGRAM and RESULT does not hold.
pub fn matched_place(rule: &Rule, device: &Device, outcome: &Outcome) -> Option<Place> {
    if !other_keys_hold(rule, device, outcome) {
        None
    } else if has_parent_keys(rule) {
        nearest_place(rule, device, outcome)
    } else {
        Some(NO_PLACE)
    }
}

/// How many devices the search for the parent keys tries: up to the nearest that satisfies
/// them, or all. Without parent keys, or if another key does not hold, there is no search.
pub fn devices_tried(rule: &Rule, device: &Device, outcome: &Outcome) -> usize {
    if has_parent_keys(rule) && other_keys_hold(rule, device, outcome) {
        nearest_place(rule, device, outcome).unwrap_or(device.chain.len())
    } else {
        0
    }
}

pub fn has_parent_keys(rule: &Rule) -> bool {
    rule.matches().any(|(_, content)| is_parent_key(content))
}

fn is_parent_key(content: &Match) -> bool {
    matches!(content.subject, Subject::OfChain(_))
}

/// Whether all match keys but the parent keys, PROGRAM and RESULT hold.
fn other_keys_hold(rule: &Rule, device: &Device, outcome: &Outcome) -> bool {
    // They are the same at every place.
    rule.matches()
        .filter(|(_, content)| !is_parent_key(content))
        .all(|(operator, content)| holds(operator, content, EVENT_DEVICE, device, outcome))
}

/// The nearest place at which all parent keys hold.
fn nearest_place(rule: &Rule, device: &Device, outcome: &Outcome) -> Option<Place> {
    let all_hold_at = |place: &Place| {
        rule.matches()
            .filter(|(_, content)| is_parent_key(content))
            .all(|(operator, content)| holds(operator, content, *place, device, outcome))
    };
    (EVENT_DEVICE..=device.chain.len()).find(all_hold_at)
}

/// Whether a match key holds; a parent key is judged at the place.
pub fn holds(
    operator: Operator,
    content: &Match,
    place: Place,
    device: &Device,
    outcome: &Outcome,
) -> bool {
    let pattern = &content.pattern;
    let matches = match &content.subject {
        Subject::Action => pattern.matches(device.action.name().as_bytes()),
        Subject::Devpath => pattern.matches(&device.event_device().path),
        Subject::OfEventDevice(feature) => feature_matches(feature, pattern, device.event_device()),
        Subject::OfChain(feature) => device
            .at(place)
            .is_some_and(|device| feature_matches(feature, pattern, device)),
        Subject::Property(key) => {
            pattern.matches(value_of(&outcome.properties, key).unwrap_or_default())
        }
        Subject::Links => outcome.links.iter().any(|link| pattern.matches(link)),
        Subject::Tags => outcome.tags.iter().any(|tag| pattern.matches(tag)),
    };
    matches == (operator == Operator::Equal)
}

/// What is absent matches no pattern.
fn feature_matches(feature: &Feature, pattern: &Pattern, device: &ChainDevice) -> bool {
    feature_of(device, feature).is_some_and(|text| match feature {
        Feature::Name | Feature::Subsystem | Feature::Driver => pattern.matches(text),
        Feature::Attribute(_) => pattern.matches_attribute(text),
    })
}

/// What a device has for the feature, or `None` if that is absent. A driver without bytes is
/// absent, an attribute or a subsystem without bytes is present.
pub fn feature_of<'a>(device: &'a ChainDevice, feature: &Feature) -> Option<&'a [u8]> {
    match feature {
        Feature::Name => Some(device.name()),
        Feature::Subsystem => Some(&device.subsystem),
        Feature::Driver => (!device.driver.is_empty()).then_some(&device.driver),
        Feature::Attribute(name) => value_of(&device.attributes, name),
    }
}

/// The assignments of one rule in progress.
struct Assigner<'a> {
    device: &'a Device,
    matched: Place,
    string_escape: StringEscape,
    outcome: &'a mut Outcome,
}

impl Assigner<'_> {
    fn assign_all(&mut self, rule: &Rule) -> Result<(), Fault> {
        for (operator, assignment) in rule.assignments() {
            if !is_closed(assignment, self.outcome) {
                self.assign(operator, assignment)?;
            }
        }
        Ok(())
    }

    fn assign(&mut self, operator: Operator, assignment: &Assignment) -> Result<(), Fault> {
        match assignment {
            Assignment::Property { key, value } => self.assign_property(key, value),
            Assignment::Links(template) => self.assign_links(operator, template),
            Assignment::Tag(tag) => self.assign_tag(operator, tag),
            Assignment::Run(run_type, template) => self.assign_run(
                operator,
                Run {
                    run_type: *run_type,
                    matched: self.matched,
                    template: template.clone(),
                },
            ),
            Assignment::Owner(template) => {
                self.outcome.owner = Some(self.owner_or_group(template)?);
                self.outcome.closed.owner |= operator.closes();
                Ok(())
            }
            Assignment::Group(template) => {
                self.outcome.group = Some(self.owner_or_group(template)?);
                self.outcome.closed.group |= operator.closes();
                Ok(())
            }
            Assignment::Mode(template) => {
                self.outcome.mode = Some(self.mode(template)?);
                self.outcome.closed.mode |= operator.closes();
                Ok(())
            }
            Assignment::StringEscape(string_escape) => {
                self.string_escape = *string_escape;
                Ok(())
            }
            Assignment::LinkPriority(priority) => {
                self.outcome.priority = *priority;
                Ok(())
            }
            Assignment::Watch(watch) => {
                self.outcome.watch = *watch;
                Ok(())
            }
        }
    }

    fn substitute(&self, template: &Template, inserted: Inserted) -> Result<Vec<u8>, Fault> {
        let sources = Sources {
            device: self.device,
            properties: &self.outcome.properties,
            output: &self.outcome.output,
            matched: self.matched,
        };
        template
            .substitute(&sources, inserted)
            .ok_or(Fault::Substituted)
    }

    fn assign_property(&mut self, key: &[u8], value: &[u8]) -> Result<(), Fault> {
        let properties = &mut self.outcome.properties;
        if value.is_empty() {
            properties.retain(|property| property.key != key);
            return Ok(());
        }
        let value = match self.string_escape {
            StringEscape::Replace => cleaned(value),
            StringEscape::Unset | StringEscape::None => value.to_vec(),
        };
        if let Some(held) = properties.iter_mut().find(|property| property.key == key) {
            held.value = value;
        } else if properties.len() < sizes::PROPERTIES {
            properties.push(Property::new(key, &value));
        } else {
            return Err(Fault::Full);
        }
        Ok(())
    }

    fn assign_links(&mut self, operator: Operator, template: &Template) -> Result<(), Fault> {
        let names = self.link_names(template)?;
        let links = &mut self.outcome.links;
        if operator.empties() {
            links.clear();
        }
        for name in &names {
            if !is_sound_link(name) {
                return Err(Fault::Link);
            }
            change_list(links, operator, name, sizes::LINKS)?;
        }
        self.outcome.closed.links |= operator.closes();
        Ok(())
    }

    fn link_names(&self, template: &Template) -> Result<Vec<Vec<u8>>, Fault> {
        if self.string_escape == StringEscape::None {
            let text = self.substitute(template, Inserted::AsItIs)?;
            Ok(split_names(&text).map(<[u8]>::to_vec).collect())
        } else {
            let text = self.substitute(template, Inserted::WhitespaceReplaced)?;
            Ok(split_names(&text).map(cleaned).collect())
        }
    }

    fn assign_tag(&mut self, operator: Operator, tag: &[u8]) -> Result<(), Fault> {
        let tags = &mut self.outcome.tags;
        if operator.empties() {
            tags.clear();
        }
        if !tag.is_empty() {
            change_list(tags, operator, tag, sizes::TAGS)?;
        }
        self.outcome.closed.tags |= operator.closes();
        Ok(())
    }

    fn assign_run(&mut self, operator: Operator, run: Run) -> Result<(), Fault> {
        let runs = &mut self.outcome.runs;
        if operator.empties() {
            runs.clear();
        }
        if !run.template.written().is_empty() {
            if runs.len() == sizes::RUNS {
                return Err(Fault::Full);
            }
            runs.push(run);
        }
        self.outcome.closed.runs |= operator.closes();
        Ok(())
    }

    fn mode(&self, template: &Template) -> Result<u32, Fault> {
        let digits = self.substitute(template, Inserted::AsItIs)?;
        let mode = read_mode(&digits).ok_or(Fault::Mode)?;
        if lets_others_write(mode) {
            return Err(Fault::WorldWritable);
        }
        Ok(mode)
    }

    fn owner_or_group(&self, template: &Template) -> Result<Vec<u8>, Fault> {
        let name = self.substitute(template, Inserted::AsItIs)?;
        if is_sound_owner_or_group(&name) {
            Ok(name)
        } else {
            Err(Fault::OwnerOrGroup)
        }
    }
}

/// Whether the assignment is to a closed key.
pub fn is_closed(assignment: &Assignment, outcome: &Outcome) -> bool {
    let closed = &outcome.closed;
    match assignment {
        Assignment::Links(_) => closed.links,
        Assignment::Tag(_) => closed.tags,
        Assignment::Run(..) => closed.runs,
        Assignment::Owner(_) => closed.owner,
        Assignment::Group(_) => closed.group,
        Assignment::Mode(_) => closed.mode,
        Assignment::Property { .. }
        | Assignment::StringEscape(_)
        | Assignment::LinkPriority(_)
        | Assignment::Watch(_) => false,
    }
}

/// Removes the entry from the list, or adds it if it is not there yet.
fn change_list(
    list: &mut Vec<Vec<u8>>,
    operator: Operator,
    entry: &[u8],
    limit: usize,
) -> Result<(), Fault> {
    if operator == Operator::Remove {
        list.retain(|held| held != entry);
        return Ok(());
    }
    if list.iter().any(|held| held == entry) {
        return Ok(());
    }
    if list.len() == limit {
        return Err(Fault::Full);
    }
    list.push(entry.to_vec());
    Ok(())
}

/// The mode of 1 to 4 octal digits.
pub fn read_mode(digits: &[u8]) -> Option<u32> {
    let is_octal = digits.iter().all(|digit| (b'0'..=b'7').contains(digit));
    if !(1..=sizes::MODE_DIGITS).contains(&digits.len()) || !is_octal {
        return None;
    }
    let mode = digits
        .iter()
        .fold(0, |mode, digit| 8 * mode + u32::from(digit - b'0'));
    Some(mode)
}
