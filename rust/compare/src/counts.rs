//! What was compared and what was met, counted, and the report of it.
use std::collections::BTreeMap;

#[derive(Debug, Clone, Copy, PartialEq, Eq, PartialOrd, Ord)]
pub enum Section {
    Tables,
    Lists,
    Questions,
    Lines,
    Compared,
    PassedOver,
    Refusals,
    Verdicts,
    Responses,
    Endings,
}

use Section::*;

#[derive(Debug, Default, Clone, PartialEq, Eq)]
pub struct Counts(BTreeMap<(Section, &'static str), u64>);

impl Section {
    fn title(self) -> &'static str {
        match self {
            Tables => "tables of each kind",
            Lists => "request lists of each kind",
            Questions => "questions asked of both, as calls",
            Lines => "questions asked of both, as command lines",
            Compared => "compared besides",
            PassedOver => "questions asked of neither, for their cost",
            Refusals => "refusals met",
            Verdicts => "verdicts met",
            Responses => "responses met",
            Endings => "endings of a replay met",
        }
    }
}

impl Counts {
    pub fn add(&mut self, section: Section, name: &'static str, n: u64) {
        *self.0.entry((section, name)).or_default() += n;
    }

    pub fn of(&self, section: Section, name: &'static str) -> u64 {
        self.0.get(&(section, name)).copied().unwrap_or(0)
    }

    pub fn join(&mut self, other: &Counts) {
        for (&(section, name), &n) in &other.0 {
            self.add(section, name, n);
        }
    }

    pub fn report(&self) -> String {
        let mut text = String::new();
        let mut last = None;
        for (&(section, name), n) in &self.0 {
            if last != Some(section) {
                let total: u64 = self
                    .0
                    .range((section, "")..)
                    .take_while(|r| r.0 .0 == section)
                    .map(|r| r.1)
                    .sum();
                let total = if section == Compared {
                    String::new()
                } else {
                    total.to_string()
                };
                text += &format!("{:<44}{total:>12}\n", section.title());
                last = Some(section);
            }
            text += &format!("  {name:<42}{n:>12}\n");
        }
        text
    }
}

#[cfg(test)]
mod tests {
    use super::*;
    use crate::must::never_met;

    #[test]
    fn counts_of_two_threads_are_joined() {
        let (mut a, mut b) = (Counts::default(), Counts::default());
        a.add(Refusals, "13", 2);
        b.add(Refusals, "13", 3);
        a.join(&b);
        assert_eq!(a.of(Refusals, "13"), 5);
        assert!(!never_met(&a).contains(&"refusal 13".to_string()));
    }
}
