//! The entries through the wrapper: over the stored cases (`cases/`), and beside a plain reading of document 01 (`plain`). Each test
//! counts its cases and those that differ, and prints both.

mod lent;
mod plain;
mod refusals;
mod stored;
mod tally;

mod against_plain;
mod boundaries;
mod calls;
mod formulas;
mod games;
mod generated;
mod groups;
mod histories;
mod look_ups;
mod ordinary;
mod reading;
mod replays;
mod reports;
mod rules;
mod searches;
mod small_jobs;
mod small_problems;
mod triples;
mod writer;

use kickballbox::RuleSet;

fn all_sets() -> impl Iterator<Item = RuleSet> {
    (0..128).map(RuleSet::unchecked)
}
