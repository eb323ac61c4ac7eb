//! Random and damaged files: the gate and the reference agree on each.
//! `GATE_FILES` sets how many, `GATE_LOOPS` how many whose loops leave focus,
//! `GATE_TWINS` how many in which all proofs use twins, `GATE_GOALS` how many in the
//! form of several goals alone, `GATE_SEED` the seed. Of the first, two out of five
//! are made of tables with twins for proofs that use them, whatever the seed. Boxes
//! and diamonds go by actions in all of them, and half of all have the form of several
//! goals; one in twenty lacks entries, goals or nodes.

use gate_tests::setting;
use reference::corpus::CheckRecord;
use reference::generate::{Empty, Part};
use reference::{describe, generate, Form};
use std::collections::BTreeMap;

/// What a run of files was like: how many there were of each sort.
#[derive(Default)]
struct Shares {
    accepted: u64,
    /// Two entries of one formula are used.
    twins: u64,
    /// Box steps by an action above 0.
    actions: u64,
    /// The form of several goals, and of these how many are accepted.
    goals: u64,
    goals_accepted: u64,
    /// Proofs whose trees interleave in number, and of these how many are accepted.
    interleaved: u64,
    interleaved_accepted: u64,
    /// Files that lack entries, goals or nodes, and of these how many are accepted.
    empty: BTreeMap<Empty, u64>,
    empty_accepted: u64,
}

impl Shares {
    fn count(&mut self, record: &CheckRecord) {
        let accepted = record.answer == 0;
        if let Some(empty) = Empty::of_files(&record.claim, &record.proof) {
            *self.empty.entry(empty).or_default() += 1;
            self.empty_accepted += u64::from(accepted);
        }
        self.accepted += u64::from(accepted);
        let goals = record.form() == Some(Form::Several);
        self.goals += u64::from(goals);
        self.goals_accepted += u64::from(goals && accepted);
        if let Some(decoded) = reference::judge(&record.claim, &record.proof).decoded {
            self.twins += u64::from(!generate::twins_used(&decoded).is_empty());
            let stepped_by = generate::stepped_by(&decoded);
            self.actions += u64::from(stepped_by.iter().any(|&action| action != 0));
            let interleaved = generate::interleaved(&decoded);
            self.interleaved += u64::from(interleaved);
            self.interleaved_accepted += u64::from(interleaved && accepted);
        }
    }

    /// Enough of each of these.
    fn assert_empty(&self, forms: &[Empty], files: u64) {
        for form in forms {
            let count = self.empty.get(form).copied().unwrap_or_default();
            assert!(count * 400 > files, "too few that lack {form:?}");
        }
        let empty: u64 = self.empty.values().sum();
        assert!(empty * 20 > files, "too few that lack something");
        assert!(
            self.empty_accepted * 100 > files,
            "too few of these accepted"
        );
    }
}

/// The gate's answers are the reference's, and enough of the files are accepted, also
/// of those with several goals.
fn assert_agree(records: impl Iterator<Item = CheckRecord>, files: u64, what: &str) -> Shares {
    let mut shares = Shares::default();
    for (index, record) in records.take(files as usize).enumerate() {
        let got = gate_tests::check(&record.claim, &record.proof);
        let (got, expected) = (describe(got), describe(record.answer));
        assert_eq!(got, expected, "{what} {index}");
        shares.count(&record);
    }
    let Shares {
        accepted,
        twins,
        actions,
        goals,
        goals_accepted,
        interleaved,
        interleaved_accepted,
        ref empty,
        empty_accepted,
    } = shares;
    println!(
        "gate: {files} of {what} agree, {accepted} accepted, {twins} use twins, {actions} step by \
         actions above 0; {goals} of several goals ({goals_accepted} accepted), {interleaved} \
         interleaved ({interleaved_accepted} accepted); lacking {empty:?} ({empty_accepted} \
         accepted)"
    );
    assert!(accepted * 10 > files, "too few accepted proofs");
    assert!(actions * 20 > files, "too few steps by actions");
    assert!(goals * 3 > files, "too few of several goals");
    assert!(goals_accepted * 10 > files, "too few of these accepted");
    assert!(interleaved_accepted * 20 > files, "too few interleaved");
    shares
}

#[test]
fn random_and_damaged_files_agree() {
    let records = generate::checks(setting("GATE_SEED", 1));
    let files = setting("GATE_FILES", 50_000);
    let shares = assert_agree(records, files, "generated pairs");
    assert!(shares.twins * 3 > files, "too few proofs that use twins");
    shares.assert_empty(&Empty::ALL, files);
}

/// Roots, trees and goals broken in every way.
#[test]
fn files_of_several_goals_agree() {
    let records = generate::goals(setting("GATE_SEED", 1));
    let files = setting("GATE_GOALS", 10_000);
    let shares = assert_agree(records, files, "files of several goals");
    assert!(shares.goals * 10 > files * 9, "too few of several goals");
    shares.assert_empty(&Empty::ALL[..5], files);
}

/// "Acceptance means each goal is proved": the gate says of a claim what it says of
/// its goals, each with its tree alone in the form of one goal. 36 comes by rising
/// root, then 37 or 38 by rising node, then 39 by rising leaf.
fn of_its_parts(parts: &[Part]) -> u32 {
    let refusals = parts.iter().filter_map(|part| {
        let answer = gate_tests::check(&part.claim, &part.proof);
        let (number, place) = (answer >> 16, (answer & 0xffff) as usize);
        let stage = match number {
            0 => return None,
            38 => 37,
            other => other,
        };
        Some((stage, part.numbers[place], number))
    });
    let first = refusals.min();
    first.map_or(0, |(_, place, number)| number << 16 | place as u32)
}

#[test]
fn a_claim_gets_what_its_goals_get() {
    let (mut several, mut refused) = (0u64, 0u64);
    let files = setting("GATE_GOALS", 10_000);
    let records = generate::goals(setting("GATE_SEED", 1) + 1);
    for (index, record) in records.take(files as usize).enumerate() {
        let Some(decoded) = reference::judge(&record.claim, &record.proof).decoded else {
            continue;
        };
        let parts = generate::apart(&decoded);
        if parts.len() < 2 {
            continue;
        }
        let got = gate_tests::check(&record.claim, &record.proof);
        assert_eq!(
            describe(got),
            describe(of_its_parts(&parts)),
            "pair {index}"
        );
        several += 1;
        refused += u64::from(got != 0);
    }
    println!("gate: {several} claims get what their goals get, {refused} of them a refusal");
    assert!(several * 3 > files && refused * 10 > files);
}

/// Rule 9 on a loop path, in good files and in bad ones.
#[test]
fn loops_that_leave_focus_agree() {
    let records = generate::loops_leaving_focus(setting("GATE_SEED", 1));
    assert_agree(
        records,
        setting("GATE_LOOPS", 10_000),
        "loops that leave focus",
    );
}

/// Two entries of one formula in each proof.
#[test]
fn files_with_twins_agree() {
    let records = generate::twins(setting("GATE_SEED", 1));
    let files = setting("GATE_TWINS", 10_000);
    let shares = assert_agree(records, files, "files with twins");
    assert_eq!(shares.twins, files);
}

#[test]
fn proofs_that_keep_every_rule_are_accepted() {
    for (claim, proof) in generate::accepted(setting("GATE_SEED", 1)).take(2_000) {
        assert_eq!(gate_tests::check(&claim, &proof), 0);
    }
}

/// In both forms, the longer one with the more cuts.
#[test]
fn every_cut_of_a_good_pair_agrees() {
    let one = generate::accepted_in(Form::One, 7).take(20);
    let several = generate::accepted_in(Form::Several, 7).take(20);
    for (claim, proof) in one.chain(several) {
        for length in 0..claim.len() {
            let cut = &claim[..length];
            assert_eq!(
                gate_tests::check(cut, &proof),
                reference::check(cut, &proof)
            );
        }
        for length in 0..proof.len() {
            let cut = &proof[..length];
            assert_eq!(
                gate_tests::check(&claim, cut),
                reference::check(&claim, cut)
            );
        }
    }
}

#[test]
fn every_map_with_every_kind_and_rule_agrees() {
    for form in Form::ALL {
        let mut good = generate::accepted_in(form, 11);
        let (claim, proof) = good.next().expect("a pair");
        // With several goals their roots stand before the nodes.
        let node = 6 + 2 * gate_tests::decode::roots(&claim, &proof).len();
        for pair in 0..=u16::MAX {
            let [map, second] = pair.to_le_bytes();
            let mut other = claim.clone();
            other[6] = map;
            other[7] = second;
            assert_eq!(
                gate_tests::check(&other, &proof),
                reference::check(&other, &proof)
            );
            let mut other = proof.clone();
            other[node] = map;
            other[node + 1] = second;
            assert_eq!(
                gate_tests::check(&claim, &other),
                reference::check(&claim, &other)
            );
        }
    }
}

/// Every number in the place of a goal count and of a root.
#[test]
fn every_goal_count_and_root_agrees() {
    let several = |(claim, _): &(Vec<u8>, Vec<u8>)| gate_tests::decode::goals(claim).len() == 3;
    let mut good = generate::accepted_in(Form::Several, 12).filter(several);
    let (claim, proof) = good.next().expect("a pair");
    let lists = gate_tests::decode::goals(&claim);
    let goals = claim.len() - lists.iter().map(|list| 2 + 2 * list.len()).sum::<usize>() - 2;
    for number in 0..=u16::MAX {
        let bytes = number.to_le_bytes();
        let mut other = claim.clone();
        other[goals..goals + 2].copy_from_slice(&bytes);
        let expected = reference::check(&other, &proof);
        assert_eq!(gate_tests::check(&other, &proof), expected);
        assert_eq!(expected == 72 << 16 | goals as u32, number > 16);
        for root in [6, 8, 10] {
            let mut other = proof.clone();
            other[root..root + 2].copy_from_slice(&bytes);
            assert_eq!(
                gate_tests::check(&claim, &other),
                reference::check(&claim, &other)
            );
        }
    }
}

/// Every number in the place of the entry count, the goal count and the node count of
/// empty files, and of files that hold one entry, goal or node.
#[test]
fn every_count_of_empty_files_agrees() {
    let empty: [&[u8]; 2] = [b"CLM2\0\0\0\0", b"PRF2\0\0"];
    let truth: [&[u8]; 2] = [
        b"CLM2\x01\0\0\x01\x01\0\x01\0\0\0",
        b"PRF2\x01\0\0\0\x10\x01\x01\x01\0",
    ];
    let alone: [&[u8]; 2] = [
        b"CLM1\x01\0\0\x01\x01\0\0\0",
        b"PRF1\x01\0\x10\x01\x01\x01\0",
    ];
    for number in 0..=u16::MAX {
        let counted = |file: &[u8], at: usize| {
            let mut file = file.to_vec();
            file[at..at + 2].copy_from_slice(&number.to_le_bytes());
            file
        };
        for (files, places) in [(empty, &[4, 6][..]), (truth, &[4, 8, 10]), (alone, &[4, 8])] {
            let [claim, proof] = files;
            for &at in places {
                let other = counted(claim, at);
                let expected = reference::check(&other, proof);
                assert_eq!(gate_tests::check(&other, proof), expected);
            }
            let other = counted(proof, 4);
            let expected = reference::check(claim, &other);
            assert_eq!(gate_tests::check(claim, &other), expected);
        }
    }
}

#[test]
fn long_files_and_large_fields_agree() {
    for (claim, proof) in generate::accepted(13).take(50) {
        let mut long = claim.clone();
        long.resize(70_000, 0xFF);
        assert_eq!(
            gate_tests::check(&long, &proof),
            reference::check(&long, &proof)
        );
        let mut long = proof.clone();
        long.resize(200_000, 1);
        assert_eq!(
            gate_tests::check(&claim, &long),
            reference::check(&claim, &long)
        );
        for at in 0..proof.len() - 1 {
            let mut other = proof.clone();
            other[at] = 0xFF;
            other[at + 1] = 0xFF;
            assert_eq!(
                gate_tests::check(&claim, &other),
                reference::check(&claim, &other)
            );
        }
    }
}
