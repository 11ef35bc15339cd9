//! What a comparison of calls has met, counted: calls, answers, refusals and the clauses of refusal 9.
//! A comparison that never met a refusal or a clause has said nothing about it, and `all_met` tells so.

use std::collections::BTreeMap;
use std::fmt;

use super::refusal::{Clause, Refusal};
use super::rows::Call;

/// What a comparison must have met, by the names under which a report counts it.
pub struct Wanted {
    pub accepted: Vec<Call>,
    pub answers: Vec<u64>,
    pub refused: Vec<u64>,
    pub clauses: Vec<Clause>,
}

impl Wanted {
    /// Kinds of answers are numbered from 0, going on, to 7, an energy.
    fn everything() -> Wanted {
        Wanted { accepted: Call::ALL.into(), answers: (0..=7).collect(), refused: Refusal::NUMBERS.into(), clauses: Clause::all() }
    }
}

#[derive(Debug, Default)]
pub struct Report {
    pub cases: u64,
    pub accepted: BTreeMap<Call, u64>,
    pub answers: BTreeMap<u64, u64>,
    pub refused: BTreeMap<u64, u64>,
    pub clauses: BTreeMap<Clause, u64>,
}

impl Report {
    /// Counts one call, with the answer's row as it stands afterwards.
    pub fn count(&mut self, call: Call, judged: Result<(), Refusal>, answer: &[u64]) {
        self.cases += 1;
        match judged {
            Ok(()) => self.count_accepted(call, answer),
            Err(refusal) => self.count_refused(refusal),
        }
    }

    fn count_accepted(&mut self, call: Call, answer: &[u64]) {
        *self.accepted.entry(call).or_default() += 1;
        if matches!(call, Call::Step | Call::Energy) {
            *self.answers.entry(answer[0]).or_default() += 1;
        }
    }

    fn count_refused(&mut self, refusal: Refusal) {
        *self.refused.entry(refusal.number()).or_default() += 1;
        if let Refusal::Damaged(clause) = refusal {
            *self.clauses.entry(clause).or_default() += 1;
        }
    }

    pub fn all_met(&self) -> Result<(), String> {
        self.has_met(&Wanted::everything())
    }

    /// Tells what of the wanted was never met, if anything.
    pub fn has_met(&self, wanted: &Wanted) -> Result<(), String> {
        none_unmet(&[
            unmet("accepted", &wanted.accepted, &self.accepted),
            unmet("answer", &wanted.answers, &self.answers),
            unmet("refusal", &wanted.refused, &self.refused),
            unmet("clause", &wanted.clauses, &self.clauses),
        ])
    }
}

/// Those of the names that were never counted.
pub fn unmet<Name: Ord + fmt::Debug>(kind: &str, names: &[Name], counts: &BTreeMap<Name, u64>) -> Vec<String> {
    let unmet = names.iter().filter(|name| !counts.contains_key(name));
    unmet.map(|name| format!("{kind} {name:?}")).collect()
}

/// One sentence about all that was never met, if anything.
pub fn none_unmet(unmet: &[Vec<String>]) -> Result<(), String> {
    let unmet = unmet.concat();
    if unmet.is_empty() { Ok(()) } else { Err(format!("never met: {}", unmet.join(", "))) }
}

fn line<Name: fmt::Debug>(counts: &BTreeMap<Name, u64>) -> String {
    let counts: Vec<String> = counts.iter().map(|(name, count)| format!("{name:?} {count}")).collect();
    counts.join(", ")
}

impl fmt::Display for Report {
    fn fmt(&self, form: &mut fmt::Formatter) -> fmt::Result {
        writeln!(form, "cases     {}", self.cases)?;
        writeln!(form, "accepted  {}", line(&self.accepted))?;
        writeln!(form, "answers   {}", line(&self.answers))?;
        writeln!(form, "refused   {}", line(&self.refused))?;
        self.clauses.iter().try_for_each(|(clause, count)| writeln!(form, "  9: {count:>8}  {clause:?}"))
    }
}
