//! What `why` prints of a file.

use reference::file::Contract;

use super::findings::{findings, Finding};
use super::together::{together, Together};
use crate::agreement::{Listed, Refused};
use crate::language::Language;
use crate::rule_book::book_and_day;
use crate::words::{common, why as words};

/// One line about a road that keeps every rule.
pub fn kept(listed: &Listed, language: Language) -> String {
    let length = listed.rows.last().map_or(0, |row| row.station);
    let numbers = [length, listed.rows.len() as i128].map(|value| language.number(value));
    let contract = listed.alignment.contract;
    let book = book_and_day(contract, language);
    let line = match contract {
        Contract::Undated => language.say(words::KEEPS, &[&numbers[0], &numbers[1]]),
        Contract::Dated(_) => language.say(words::KEEPS_DATED, &[&numbers[0], &numbers[1], &book]),
    };
    line + "\n"
}

/// Every finding, and what concerns all of them.
pub fn broken(refused: &Refused, language: Language) -> String {
    let findings = findings(refused, language);
    let out: String = findings.iter().map(|found| one(found, language)).collect();
    out + &ending(refused, &findings, language)
}

/// The changes that mend all findings, and the rules that were not asked; often nothing.
pub fn ending(refused: &Refused, findings: &[Finding], language: Language) -> String {
    let together = together(refused);
    let mended = together.map(|together| all(&together, findings, language));
    mended.unwrap_or_default() + &not_asked(refused, language)
}

/// The rule and the item, after the line that would refuse the file for it.
pub fn heading(found: &Finding, language: Language) -> String {
    let values: [&dyn std::fmt::Display; 3] = [&found.number, &found.place, &found.title];
    language.say(common::HEADING, &values)
}

fn not_asked(refused: &Refused, language: Language) -> String {
    let judgement = refused.read.as_ref().map(|(_, judgement)| judgement);
    let rules = judgement.map_or(&[][..], |judgement| &judgement.not_asked);
    if rules.is_empty() {
        return String::new();
    }
    let rules: Vec<String> = rules.iter().map(i128::to_string).collect();
    language.say(words::NOT_ASKED, &[&rules.join(", ")]) + "\n"
}

/// A heading, then facts and changes.
fn one(found: &Finding, language: Language) -> String {
    let mut out = heading(found, language) + "\n";
    for fact in &found.facts {
        out += &format!("  {fact}\n");
    }
    out + &changed(&found.changes, language)
}

fn changed(changes: &[(String, String)], language: Language) -> String {
    let line = |(item, line): &(String, String)| {
        let change = language.say(words::CHANGE, &[item, line]);
        format!("  {change}\n")
    };
    changes.iter().map(line).collect()
}

/// The changes that mend every rule that can be mended, where they are not those of the only finding.
fn all(together: &Together, findings: &[Finding], language: Language) -> String {
    let is_told = findings.len() == 1 && findings[0].changes == together.changes;
    if together.changes.is_empty() || is_told {
        return String::new();
    }
    let mut out = language.say(words::TOGETHER, &[]) + "\n";
    out += &changed(&together.changes, language);
    let remaining = together.remaining.iter();
    let remaining: Vec<String> = remaining
        .map(|refusal| format!("R {} {}", refusal.number, refusal.place))
        .collect();
    if !remaining.is_empty() {
        let words = language.say(words::REMAINING, &[&remaining.join(", ")]);
        out += &format!("  {words}\n");
    }
    out
}
