//! What the generator promises: the same inputs for the same seed, every
//! outcome, proofs that are accepted, and claims that hold.

use reference::corpus::CheckRecord;
use reference::generate::{self, Empty, Tally};
use reference::{check, corpus, describe, draft, evaluate, judge};
use reference::{Claim, Entry, Form, Kind, Model, Proof, Rule};
use std::collections::BTreeMap;

#[test]
fn the_same_seed_gives_the_same_inputs() {
    let checks = |seed| corpus::write_checks(&generate::checks(seed).take(500).collect::<Vec<_>>());
    let evals = |seed| corpus::write_evals(&generate::evals(seed).take(500).collect::<Vec<_>>());
    assert_eq!(checks(3), checks(3));
    assert_ne!(checks(3), checks(4));
    assert_eq!(evals(3), evals(3));
    assert_ne!(evals(3), evals(4));
}

fn assert_occur(tally: &Tally, numbers: impl IntoIterator<Item = u32>) {
    for number in numbers {
        assert!(tally.count(number) > 0, "no refusal {number} in\n{tally}");
    }
}

#[test]
fn every_outcome_of_a_check_occurs() {
    let records = generate::checks(1).take(20_000);
    let tally = Tally::of(records.map(|record| record.number()));
    println!("{tally}");
    assert_occur(
        &tally,
        (10..=14).chain(20..=23).chain(30..=39).chain([71, 72]),
    );
    assert!(
        tally.count(0) * 100 >= tally.total() * 15,
        "few accepted in\n{tally}"
    );
}

#[test]
fn every_outcome_of_an_evaluation_occurs() {
    let records = generate::evals(1).take(20_000);
    let tally = Tally::of(records.map(|record| record.number()));
    println!("{tally}");
    assert_occur(
        &tally,
        (10..=14).chain(20..=23).chain(60..=64).chain([71, 72]),
    );
    assert!(
        tally.count(0) * 100 >= tally.total() * 15,
        "few finished in\n{tally}"
    );
}

#[test]
fn proofs_made_by_the_rules_are_accepted() {
    for (claim, proof) in generate::accepted(2).take(10_000) {
        assert_eq!(describe(check(&claim, &proof)), "accept");
    }
}

/// Whether some loop has another loop's companion inside its path.
fn has_nested_loops(proof: &Proof) -> bool {
    let paths = generate::loop_paths(proof);
    let tops: Vec<usize> = paths
        .iter()
        .filter_map(|path| path.last().copied())
        .collect();
    paths.iter().any(|path| {
        path[..path.len() - 1]
            .iter()
            .any(|node| tops.contains(node))
    })
}

#[test]
fn accepted_proofs_have_many_and_nested_loops_and_some_leave_focus() {
    let (mut many, mut nested, mut leaving, mut rules) = (0, 0, 0, [0; 12]);
    for (claim, proof) in generate::accepted(5).take(2000) {
        let decoded = judge(&claim, &proof).decoded.expect("accepted");
        let nodes = &decoded.proof.nodes;
        let loops = nodes.iter().filter(|node| node.rule == Rule::Back).count();
        many += usize::from(loops >= 2);
        nested += usize::from(has_nested_loops(&decoded.proof));
        leaving += usize::from(generate::leaves_focus(&decoded.proof));
        for rule in Rule::ALL {
            rules[rule as usize] += usize::from(nodes.iter().any(|node| node.rule == rule));
        }
    }
    assert!(
        many > 200 && nested > 100 && leaving > 100,
        "{many} with many, {nested} with nested loops, {leaving} with rule 9 on one"
    );
    assert!(rules.iter().all(|&count| count > 100), "{rules:?}");
}

/// At each state some member of each goal is true. "no state of any finite model may
/// refute even one of them"
fn assert_holds(claim: &[u8], model: &[u8]) {
    let words = evaluate(claim, model).expect("well formed");
    for goal in Claim::read(claim).expect("accepted").goals() {
        let covered = goal.iter().fold(0, |all, &m| all | words[usize::from(m)]);
        let states = u32::from(model[4]);
        assert_eq!(
            covered.count_ones(),
            states,
            "refuted: {goal:?} of {claim:?} in {model:?}"
        );
    }
}

/// An accepted claim has no model with a state that refutes it.
#[test]
fn accepted_claims_hold_in_random_models() {
    let mut models = generate::models(6);
    for (claim, proof) in generate::accepted(7).take(3000) {
        assert_eq!(describe(check(&claim, &proof)), "accept");
        for model in models.by_ref().take(4) {
            assert_holds(&claim, &model);
        }
    }
}

/// The same for whatever else is accepted, near misses included.
#[test]
fn whatever_is_accepted_holds_in_random_models() {
    let mut models = generate::models(8);
    let accepted = generate::checks(9).filter(|record| record.answer == 0);
    for record in accepted.take(3000) {
        for model in models.by_ref().take(3) {
            assert_holds(&record.claim, &model);
        }
    }
}

#[test]
fn loops_that_leave_focus_are_good_and_bad() {
    let records = || generate::loops_leaving_focus(3).take(5_000);
    for record in records() {
        let decoded = judge(&record.claim, &record.proof).decoded.expect("nodes");
        assert!(generate::leaves_focus(&decoded.proof));
    }
    let tally = Tally::of(records().map(|record| record.number()));
    println!("{tally}");
    assert_occur(&tally, [36, 37, 38, 39]);
    assert!(
        tally.count(0) * 100 >= tally.total() * 30,
        "few accepted in\n{tally}"
    );
}

/// The kinds of the twins in a proof; none if it is not decoded.
fn kinds_of_twins(record: &CheckRecord) -> Vec<Kind> {
    let Some(decoded) = judge(&record.claim, &record.proof).decoded else {
        return Vec::new();
    };
    let entries = &decoded.claim.entries;
    let twins = generate::twins_used(&decoded).into_iter();
    twins
        .map(|(entry, _)| entries[usize::from(entry)].kind)
        .collect()
}

#[test]
fn files_with_twins_use_them() {
    let records = || generate::twins(3).take(5_000);
    let (mut compound, mut fixpoints) = (0, 0);
    for record in records() {
        let kinds = kinds_of_twins(&record);
        assert!(!kinds.is_empty());
        compound += usize::from(kinds.iter().any(|&kind| kind as u8 >= Kind::Or as u8));
        fixpoints += usize::from(kinds.iter().any(|kind| matches!(kind, Kind::Mu | Kind::Nu)));
    }
    let tally = Tally::of(records().map(|record| record.number()));
    println!("of 5000 {compound} have compound twins, {fixpoints} fixpoints\n{tally}");
    assert!(compound * 3 > 5_000 && fixpoints * 6 > 5_000);
    assert_occur(&tally, [36, 37, 38, 39]);
    assert!(
        tally.count(0) * 100 >= tally.total() * 25,
        "few accepted in\n{tally}"
    );
}

#[test]
fn a_third_of_all_files_use_twins() {
    let records = generate::checks(1).take(20_000);
    let used = records.filter(|record| !kinds_of_twins(record).is_empty());
    let used = used.count();
    println!("{used} of 20000 files use twins");
    assert!(used * 3 > 20_000);
}

fn is_modal(entry: &&Entry) -> bool {
    matches!(entry.kind, Kind::Box | Kind::Diamond)
}

/// The actions of a table, bit n for action n.
fn actions(entries: &[Entry]) -> u32 {
    let modal = entries.iter().filter(is_modal);
    modal.fold(0, |actions, entry| actions | 1 << entry.b)
}

#[test]
fn accepted_proofs_step_by_every_action() {
    let (mut steps, mut several, mut many) = ([0; 16], 0, 0);
    for (claim, proof) in generate::accepted(10).take(5000) {
        let decoded = judge(&claim, &proof).decoded.expect("accepted");
        let count = actions(&decoded.claim.entries).count_ones();
        several += usize::from(count >= 2);
        many += usize::from(count >= 6);
        let mut actions = generate::stepped_by(&decoded);
        actions.sort_unstable();
        actions.dedup();
        for action in actions {
            steps[usize::from(action)] += 1;
        }
    }
    println!("of 5000 {several} with several actions, {many} with many; steps {steps:?}");
    assert!(several > 1500 && many > 200);
    assert!(steps.iter().all(|&count| count > 50), "{steps:?}");
}

/// The claim with action 0 for all boxes and diamonds.
fn without_actions(claim: &[u8]) -> Vec<u8> {
    let claim = Claim::read(claim).expect("well formed");
    let mut entries = claim.entries.clone();
    for entry in &mut entries {
        if is_modal(&&*entry) {
            entry.b = 0;
        }
    }
    let goals: Vec<Vec<u16>> = claim.goals().map(<[u16]>::to_vec).collect();
    match claim.form {
        Form::One => draft::claim(&entries, &claim.members).bytes,
        Form::Several => draft::goal_claim(&entries, &goals).bytes,
    }
}

#[test]
fn the_actions_decide_of_many_proofs() {
    let (mut decoded, mut refused, mut accepted) = (0, 0, 0);
    for record in generate::checks(13).take(20_000) {
        if !matches!(record.number(), 0 | 36..=39) {
            continue;
        }
        decoded += 1;
        let plain = check(&without_actions(&record.claim), &record.proof);
        refused += usize::from(record.answer != 0 && plain == 0);
        accepted += usize::from(record.answer == 0 && plain != 0);
    }
    println!("of {decoded} the actions refuse {refused} and accept {accepted}");
    assert!(refused * 100 > decoded && accepted * 100 > decoded);
}

#[test]
fn the_actions_decide_of_many_words() {
    let (mut forms, mut evaluated, mut other) = ([0; 2], 0, 0);
    for record in generate::evals(14).filter(|r| r.answer == 0).take(5000) {
        evaluated += 1;
        forms[usize::from(record.model[3] - b'1')] += 1;
        let plain = evaluate(&without_actions(&record.claim), &record.model);
        other += usize::from(plain != Ok(record.words));
    }
    println!("of {evaluated} in {forms:?} models {other} have other words");
    assert!(forms[0] > 1000 && forms[1] > 2000 && other * 5 > evaluated);
}

/// Each action of a model that has all, and models with places beyond two bytes.
#[test]
fn models_have_every_action_and_every_length() {
    let mut seen = [0; 16];
    for model in generate::models(15).take(3000) {
        let model = Model::read(&model).expect("well formed");
        for (action, seen) in (0..).zip(&mut seen) {
            let leads = |state| model.successors(action, state) != 0;
            *seen += usize::from((0..model.states()).any(leads));
        }
    }
    assert!(seen.iter().all(|&count| count > 300), "{seen:?}");
    let far = generate::evals(16).take(20_000);
    let far = far.filter(|record| record.answer as u32 > 65_535).count();
    println!("models by action {seen:?}, {far} of 20000 places beyond two bytes");
    assert!(far > 20);
}

/// Where the entries of a claim begin, and their maps, kinds and fields B.
fn laid_entries(claim: &[u8]) -> Vec<(usize, u8, u8, u16)> {
    let count = u16::from_le_bytes([claim[4], claim[5]]);
    let mut at = 6;
    let entry = |_| {
        let (map, kind) = (claim[at], claim[at + 1]);
        let b = match map {
            3 => u16::from_le_bytes([claim[at + 4], claim[at + 5]]),
            _ => 0,
        };
        let found = (at, map, kind, b);
        at += 2 + 2 * map.count_ones() as usize;
        found
    };
    (0..count).map(entry).collect()
}

/// Those that 71 is for, by their bytes.
fn unfit_actions(claim: &[u8]) -> Vec<usize> {
    let unfit = |&(_, map, kind, b): &(usize, u8, u8, u16)| {
        map == 3 && matches!(kind, 6 | 7) && !(1..=15).contains(&b)
    };
    let entries = laid_entries(claim);
    (0..entries.len())
        .filter(|&at| unfit(&entries[at]))
        .collect()
}

/// What a claim earns once the action of that entry is 1.
fn with_action_1(claim: &[u8], entry: usize) -> u32 {
    let at = laid_entries(claim)[entry].0;
    let mut mended = claim.to_vec();
    mended[at + 4..at + 6].copy_from_slice(&[1, 0]);
    check(&mended, b"") >> 16
}

#[test]
fn unfit_actions_beside_other_faults() {
    let (mut above, mut written_out, mut before, mut same, mut after) = (0, 0, 0, 0, 0);
    let mut names = 0;
    for record in generate::checks(17).take(30_000) {
        let (number, place) = (record.number(), (record.answer & 0xffff) as usize);
        if number == 71 {
            let unfit = unfit_actions(&record.claim);
            assert_eq!(unfit.first(), Some(&place));
            let zero = laid_entries(&record.claim)[place].3 == 0;
            *[&mut above, &mut written_out][usize::from(zero)] += 1;
            let next = with_action_1(&record.claim, place);
            before += usize::from(next == 20);
            names += usize::from(matches!(next, 21..=23));
        }
        if number == 20 {
            let unfit = unfit_actions(&record.claim);
            assert!(unfit.iter().all(|&at| at >= place));
            same += usize::from(unfit.contains(&place));
            after += usize::from(unfit.iter().any(|&at| at > place));
        }
    }
    println!(
        "71 for {above} above 15, {written_out} written out; {before} before a 20, {names} before \
         21 to 23; {same} 20 at the same entry, {after} at an earlier one"
    );
    assert!(above > 200 && written_out > 200);
    assert!(before > 50 && same > 50 && after > 50 && names > 10);
}

/// What a run of claims and proofs has of the form with several goals.
#[derive(Debug, Default)]
struct Goals {
    files: usize,
    /// With two goals or more.
    several: usize,
    interleaved: usize,
    accepted: usize,
    /// Refusals of the form itself: 72, and 36 at a root other than node 0.
    goal_counts: usize,
    later_roots: usize,
    /// Pairs of unlike forms.
    unlike: usize,
}

fn goals_of(records: impl Iterator<Item = CheckRecord>) -> Goals {
    let mut found = Goals::default();
    for record in records {
        let [claim, proof] = [&record.claim, &record.proof].map(|file| file.get(3).copied());
        let openings = [
            record.claim.starts_with(b"CLM"),
            record.proof.starts_with(b"PRF"),
        ];
        let mixed = matches!(
            (claim, proof),
            (Some(b'1'), Some(b'2')) | (Some(b'2'), Some(b'1'))
        );
        found.unlike += usize::from(openings == [true, true] && mixed && record.number() == 30);
        if record.form() != Some(Form::Several) {
            continue;
        }
        found.files += 1;
        found.goal_counts += usize::from(record.number() == 72);
        found.later_roots += usize::from(record.number() == 36 && record.answer & 0xffff != 0);
        if let Some(decoded) = judge(&record.claim, &record.proof).decoded {
            found.several += usize::from(decoded.claim.goals().count() > 1);
            found.interleaved += usize::from(generate::interleaved(&decoded));
            found.accepted += usize::from(record.answer == 0);
        }
    }
    found
}

#[test]
fn files_of_both_forms() {
    let found = goals_of(generate::checks(18).take(20_000));
    println!("of 20000 {found:?}");
    assert!(found.files > 8_000 && found.several > 4_000 && found.interleaved > 2_500);
    assert!(found.accepted > 3_000 && found.goal_counts > 30);
    assert!(found.later_roots > 50 && found.unlike > 100);
}

#[test]
fn files_of_several_goals() {
    let records = || generate::goals(19).take(10_000);
    let found = goals_of(records());
    println!("of 10000 {found:?}");
    assert!(found.files > 9_500 && found.several > 6_000 && found.interleaved > 4_000);
    assert!(found.accepted > 2_500 && found.later_roots > 100);
    let tally = Tally::of(records().map(|record| record.number()));
    println!("{tally}");
    assert_occur(&tally, [11, 12, 14, 31, 33, 34, 35, 36, 37, 38, 39, 72]);
}

/// In both forms, up to all sixteen goals.
#[test]
fn accepted_claims_have_every_number_of_goals() {
    let mut counts = [0; 17];
    for (claim, _) in generate::accepted(20).take(10_000) {
        let claim = Claim::read(&claim).expect("accepted");
        counts[claim.goals().count()] += usize::from(claim.form == Form::Several);
    }
    println!("of 10000 by goals: {counts:?}");
    assert!(counts[1..].iter().all(|&count| count > 0), "{counts:?}");
    assert!(counts[1] > 500 && counts[2..].iter().sum::<usize>() > 2_500);
}

/// What a run of claims and proofs has of each empty form: how often each answer.
fn empty_forms(records: impl Iterator<Item = CheckRecord>) -> BTreeMap<Empty, Tally> {
    let mut numbers: BTreeMap<Empty, Vec<u32>> = BTreeMap::new();
    for record in records {
        if let Some(empty) = Empty::of_files(&record.claim, &record.proof) {
            numbers.entry(empty).or_default().push(record.number());
        }
    }
    let tallied = |(empty, numbers): (Empty, Vec<u32>)| (empty, Tally::of(numbers.into_iter()));
    numbers.into_iter().map(tallied).collect()
}

/// What is accepted with something empty, and what the rest must get.
fn assert_empty_forms(found: &BTreeMap<Empty, Tally>, forms: &[Empty], least: usize) {
    for (empty, tally) in found {
        println!("lacks {empty:?}:\n{tally}");
    }
    for form in forms {
        let tally = found.get(form).expect("a run has each of them");
        assert!(tally.total() > least, "few of {form:?}");
        let (accepted, numbers): (bool, &[u32]) = match form {
            Empty::Everything => (true, &[]),
            Empty::GoalsAndNodes => (true, &[20]),
            Empty::Goals => (false, &[34, 35]),
            Empty::Nodes => (false, &[31, 34]),
            Empty::Entries => (false, &[12, 14, 72]),
            Empty::OfOneGoal => (false, &[12, 32]),
        };
        assert_eq!(tally.count(0) > least / 2, accepted, "{form:?}");
        assert!(accepted || tally.count(0) == 0, "{form:?}");
        assert_occur(tally, numbers.iter().copied());
    }
}

/// One in twenty at the least.
#[test]
fn files_that_lack_entries_goals_or_nodes() {
    let found = empty_forms(generate::checks(21).take(20_000));
    assert_empty_forms(&found, &Empty::ALL, 80);
    let all: usize = found.values().map(Tally::total).sum();
    println!("{all} of 20000 lack something");
    assert!(all * 20 > 20_000);
    let found = empty_forms(generate::goals(22).take(10_000));
    assert_empty_forms(&found, &Empty::ALL[..5], 40);
}

/// "No goals but nodes: 35, at the first bad child number by rising parent, else at
/// node 0."
#[test]
fn nodes_without_goals_are_refused_at_every_place() {
    let (mut orphans, mut later) = (0, 0);
    for record in generate::checks(24).take(20_000) {
        let empty = Empty::of_files(&record.claim, &record.proof);
        if empty == Some(Empty::Goals) && record.number() == 35 {
            orphans += usize::from(record.answer & 0xffff == 0);
            later += usize::from(record.answer & 0xffff != 0);
        }
    }
    println!("of 20000 {orphans} without goals are refused at node 0, {later} at a later one");
    assert!(orphans > 50 && later > 30);
}

/// Claims without goals and without entries, done and refused.
#[test]
fn evaluations_that_lack_entries_or_goals() {
    let (mut no_entries, mut no_goals, mut refused) = (0, 0, [0; 2]);
    for record in generate::evals(23).take(20_000) {
        let Ok(claim) = Claim::read(&record.claim) else {
            continue;
        };
        if claim.goals().count() > 0 {
            continue;
        }
        let done = usize::from(record.answer == 0);
        no_entries += done * usize::from(claim.entries.is_empty());
        no_goals += done * usize::from(!claim.entries.is_empty());
        refused[usize::from(record.number() >= 60)] += 1 - done;
        assert_eq!(record.words.len(), done * claim.entries.len());
    }
    println!(
        "of 20000 {no_entries} are done without entries, {no_goals} without goals, {refused:?} \
         refused for their entries and for their model"
    );
    assert!(no_entries > 200 && no_goals > 200);
    assert!(refused.iter().all(|&count| count > 50));
}
