//! Every built-in fault is noticed by some check, and the program as it is passes all of them.

use crate::support::Check;
use crate::{
    cases, endpoint, layouts, lists, published, refusals, saved, soundness, udp_checksums,
};
use oracle::mutant::Mutant;
use std::collections::BTreeSet;

fn all_checks() -> Vec<(&'static str, &'static str, Check)> {
    let groups: [(&str, &[(&str, Check)]); 9] = [
        ("cases", cases::CHECKS),
        ("published", published::CHECKS),
        ("layouts", layouts::CHECKS),
        ("refusals", refusals::CHECKS),
        ("soundness", soundness::CHECKS),
        ("lists", lists::CHECKS),
        ("endpoint", endpoint::CHECKS),
        ("saved", saved::CHECKS),
        ("udp_checksums", udp_checksums::CHECKS),
    ];
    groups
        .iter()
        .flat_map(|(group, checks)| checks.iter().map(|(name, check)| (*group, *name, *check)))
        // The sweep over four million codes tells nothing about faults that the cases do not.
        .filter(|(_, name, _)| *name != "every_difference_has_one_code")
        .collect()
}

#[test]
fn every_mutant_is_caught() {
    let mut caught = 0;
    for mutant in Mutant::ALL {
        let mut failing = Vec::new();
        for (group, name, check) in all_checks() {
            if let Err(what) = check(mutant) {
                failing.push((group, name, what));
            }
        }
        let Some((group, name, _)) = failing.first() else {
            panic!("{mutant:?} is not caught");
        };
        let groups: BTreeSet<&str> = failing.iter().map(|(group, _, _)| *group).collect();
        println!(
            "{mutant:?}: caught first by {group}::{name}, by {} checks in all, of {groups:?}",
            failing.len()
        );
        caught += 1;
    }
    println!("mutants: {caught} of {} caught", Mutant::ALL.len());
    assert_eq!(caught, 82);
}

#[test]
fn the_program_as_it_is_passes_the_same_checks() {
    let mut passed = 0;
    for (group, name, check) in all_checks() {
        if let Err(what) = check(Mutant::None) {
            panic!("{group}::{name}: {what}");
        }
        passed += 1;
    }
    println!("checks passed: {passed}");
}

/// Faults that break rebuilding must show in whole lists too, not only in worked cases.
#[test]
fn lists_catch_faults_of_rebuilding() {
    let others = [
        Mutant::RunNotCounted,
        Mutant::SingleStep,
        Mutant::AllRefused,
        Mutant::FixedPacket,
        Mutant::UntouchedOutput,
        Mutant::RepeatsOneShort,
        Mutant::FullHeaderKeepsDeltas,
        Mutant::RefusedSendUsesLink,
        Mutant::WholeFieldDropsDelta,
        Mutant::ChecksumJudgedWithoutGap,
        Mutant::ChecksumJudgedInFullHeader,
        Mutant::ChecksumJudgedWhereBlank,
    ];
    for mutant in others.into_iter().chain(Mutant::MISTAKEN_SUMS) {
        assert!(
            lists::some_lists(mutant).is_err(),
            "{mutant:?} not caught by lists"
        );
    }
}
