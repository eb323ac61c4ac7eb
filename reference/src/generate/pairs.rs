//! Whole inputs: claims with proofs and claims with models, good and bad.

use super::actions;
use super::damage::{damage, damage_end};
use super::empty::{claim_without_entries, empty_goal_pair, empty_pair};
use super::extremes::{hard_entries, limits, longest_model};
use super::formulas::{Builder, Scope, Shape};
use super::models;
use super::near_goal::near_goal;
use super::near_miss::near_miss;
use super::number::number;
use super::paths::leaves_focus;
use super::provable::{provable, Provable};
use super::renamed::{over_twins, with_twins};
use super::rng::Rng;
use super::search::search;
use super::several::{among_others, among_some, Several};
use super::step::{Flaw, FLAWS};
use crate::alike::least_alike;
use crate::bits::Bits;
use crate::check::{check, judge};
use crate::claim::{Entry, Kind};
use crate::draft::{self, DraftNode, File};
use crate::proof::Rule;
use crate::sequent::entry_of;

/// A claim of one goal with a proof not yet laid down.
#[derive(Clone)]
pub struct Proved {
    pub entries: Vec<Entry>,
    pub members: Vec<u16>,
    pub nodes: Vec<DraftNode>,
}

impl Proved {
    pub fn claim(&self) -> File {
        draft::claim(&self.entries, &self.members)
    }

    pub fn proof(&self) -> File {
        draft::proof(&self.nodes)
    }

    pub fn files(&self) -> (Vec<u8>, Vec<u8>) {
        (self.claim().bytes, self.proof().bytes)
    }
}

/// A claim and its proof as files, in either form: in that of several goals as one
/// of them, among others that keep every rule.
fn laid_down(rng: &mut Rng, proved: Proved) -> (File, File) {
    match rng.chance(1, 2) {
        true => (proved.claim(), proved.proof()),
        false => {
            let several = among_others(rng, proved);
            (several.claim(), several.proof())
        }
    }
}

/// The bytes of both.
pub fn in_some_form(rng: &mut Rng, proved: Proved) -> (Vec<u8>, Vec<u8>) {
    let (claim, proof) = laid_down(rng, proved);
    (claim.bytes, proof.bytes)
}

/// A table as a claim in either form: with these members, or with these and other
/// goals, or with no goal at all.
fn claim_file(rng: &mut Rng, entries: &[Entry], members: &[u16], written_out: &[usize]) -> File {
    let written_out = |at: usize| written_out.contains(&at);
    match rng.chance(1, 2) {
        true => draft::claim_written_out(entries, members, written_out),
        false if rng.chance(1, 10) => draft::goal_claim_written_out(entries, &[], written_out),
        false => {
            let more = match rng.below(8) {
                0 => rng.between(3, 16),
                _ => rng.below(3),
            };
            let mut goals: Vec<Vec<u16>> = (0..more).map(|_| any_members(rng, entries)).collect();
            goals.insert(rng.below(more + 1), members.to_vec());
            draft::goal_claim_written_out(entries, &goals, written_out)
        }
    }
}

/// A claim with a proof that keeps every rule.
pub fn accepted(rng: &mut Rng) -> Proved {
    loop {
        let claim = provable(rng);
        if let Some(proved) = prove(rng, claim, Flaw::None) {
            return proved;
        }
    }
}

fn accepted_with_loop(rng: &mut Rng) -> Proved {
    loop {
        let proved = accepted(rng);
        if proved.nodes.iter().any(|node| node.rule == Rule::Back) {
            return proved;
        }
    }
}

/// A claim and a proof made with one mistake on purpose. A search may come
/// through without making it; a few are tried.
fn flawed(rng: &mut Rng) -> Proved {
    for _ in 0..6 {
        let flaw = match rng.below(4) {
            0 => Flaw::BoxOfAnyAction,
            _ => rng.pick(&FLAWS).unwrap_or(Flaw::GivesUp),
        };
        let claim = match rng.below(3) {
            0 => any_claim(rng, false),
            _ => provable(rng),
        };
        let found = prove(rng, claim, flaw).filter(|proved| {
            let (claim, proof) = proved.files();
            check(&claim, &proof) != 0
        });
        if let Some(proved) = found {
            return proved;
        }
    }
    accepted(rng)
}

pub fn prove(rng: &mut Rng, claim: Provable, flaw: Flaw) -> Option<Proved> {
    let least = least_alike(&claim.entries);
    prove_by(rng, claim, &least, flaw)
}

/// The same with other entries taken for the same formula.
pub fn prove_by(rng: &mut Rng, claim: Provable, least: &[u16], flaw: Flaw) -> Option<Proved> {
    let steps = search(rng, &claim, least, flaw)?;
    let nodes = number(rng, &steps, flaw != Flaw::LoopWithoutCompanion);
    Some(Proved {
        entries: claim.entries,
        members: claim.members,
        nodes,
    })
}

/// Any claim, seldom one that holds; a wild one may break 21 to 23.
pub fn any_claim(rng: &mut Rng, wild: bool) -> Provable {
    let shape = Shape {
        size: rng.between(1, 120),
        depth: rng.between(1, 9),
        letters: if rng.chance(1, 4) { 32 } else { 3 },
        wild,
    };
    let roots = rng.between(1, 3);
    let mut builder = Builder::new(rng, shape);
    for _ in 0..roots {
        builder.formula(Scope::closed(), shape.depth);
    }
    let mut entries = builder.entries;
    actions::spread(rng, &mut entries);
    let members = any_members(rng, &entries);
    Provable {
        dual: vec![None; entries.len()],
        entries,
        members,
        valid: Bits::default(),
    }
}

fn any_members(rng: &mut Rng, entries: &[Entry]) -> Vec<u16> {
    let mut fit: Vec<u16> = (0..entries.len())
        .filter(|&number| entries[number].kind != Kind::Name)
        .map(|number| number as u16)
        .collect();
    let last = fit.last().copied().into_iter();
    rng.shuffle(&mut fit);
    fit.truncate(rng.between(0, 4));
    fit.extend(last);
    fit.sort_unstable();
    fit.dedup();
    fit
}

/// A claim and a proof with whatever flaw; the claim may break 20 to 23.
pub fn any_proved(rng: &mut Rng) -> Proved {
    match rng.below(9) {
        0..=2 => accepted(rng),
        3 => flawed(rng),
        4 => changed(rng),
        5 => other_members(rng),
        6 => other_action(rng),
        7 => hard_pair(rng),
        _ => {
            let claim = any_claim(rng, true);
            Proved {
                entries: claim.entries,
                members: claim.members,
                nodes: accepted(rng).nodes,
            }
        }
    }
}

/// The bytes of a claim and a proof, two times out of five of one with twins, and one
/// time in fifteen with something empty.
pub fn check_pair(rng: &mut Rng) -> (Vec<u8>, Vec<u8>) {
    match rng.below(15) {
        0 => empty_pair(rng),
        1..=6 => with_twins(rng),
        _ => any_pair(rng),
    }
}

fn any_pair(rng: &mut Rng) -> (Vec<u8>, Vec<u8>) {
    let proved = match rng.below(54) {
        0..=9 => accepted(rng),
        10..=15 => flawed(rng),
        16..=27 => changed(rng),
        28..=30 => return damaged_proof(rng),
        31..=33 => return damaged_claim(rng),
        34..=36 => return (wild_claim_file(rng).bytes, any_proof(rng)),
        37..=39 => return (unfit_claim(rng).bytes, any_proof(rng)),
        40..=42 => other_action(rng),
        43 => return (accepted(rng).claim().bytes, any_proof(rng)),
        44 => other_members(rng),
        45 => return rare_pair(rng),
        46 => return unlike_forms(rng),
        _ => return near_goals(rng),
    };
    in_some_form(rng, proved)
}

/// Some proof that belongs to another claim.
fn any_proof(rng: &mut Rng) -> Vec<u8> {
    let proved = accepted(rng);
    in_some_form(rng, proved).1
}

fn damaged_proof(rng: &mut Rng) -> (Vec<u8>, Vec<u8>) {
    let proved = accepted(rng);
    let (claim, proof) = laid_down(rng, proved);
    (claim.bytes, damage(rng, &proof))
}

fn damaged_claim(rng: &mut Rng) -> (Vec<u8>, Vec<u8>) {
    let proved = accepted(rng);
    let (claim, proof) = laid_down(rng, proved);
    (damage(rng, &claim), proof.bytes)
}

/// A claim of one form with the proof of the other, which would do.
fn unlike_forms(rng: &mut Rng) -> (Vec<u8>, Vec<u8>) {
    let proved = accepted(rng);
    let several = Several::alone(proved.clone());
    match rng.chance(1, 2) {
        true => (proved.claim().bytes, several.proof().bytes),
        false => (several.claim().bytes, proved.proof().bytes),
    }
}

/// Several goals, and mostly something wrong with them, their roots or their trees.
fn near_goals(rng: &mut Rng) -> (Vec<u8>, Vec<u8>) {
    let proved = match rng.below(4) {
        0 => over_twins(rng),
        1 => accepted_with_loop(rng),
        _ => accepted(rng),
    };
    let mut several = among_some(rng, proved);
    for _ in 0..rng.between(1, 2) {
        near_goal(rng, &mut several);
    }
    (several.claim().bytes, several.proof().bytes)
}

/// The bytes of a claim of several goals, or of none, and its proof.
pub fn goal_pair(rng: &mut Rng) -> (Vec<u8>, Vec<u8>) {
    let proved = match rng.below(13) {
        0..=1 => accepted(rng),
        2 => accepted_with_loop(rng),
        3..=4 => over_twins(rng),
        5 => flawed(rng),
        6 => changed(rng),
        7 => return empty_goal_pair(rng),
        _ => return near_goals(rng),
    };
    let several = among_some(rng, proved);
    match rng.below(12) {
        0 => (damage(rng, &several.claim()), several.proof().bytes),
        1 => (several.claim().bytes, damage(rng, &several.proof())),
        _ => (several.claim().bytes, several.proof().bytes),
    }
}

/// A claim and a proof with a loop that leaves focus: rule 9 stands on the way
/// from a back leaf up to the ancestor that it is linked to. What else is wrong
/// is as it comes.
pub fn loop_leaving_focus(rng: &mut Rng) -> (Vec<u8>, Vec<u8>) {
    loop {
        let proved = match rng.below(3) {
            0 => accepted(rng),
            1 => flawed(rng),
            _ => changed(rng),
        };
        let (claim, proof) = proved.files();
        let decoded = judge(&claim, &proof).decoded;
        if decoded.is_some_and(|decoded| leaves_focus(&decoded.proof)) {
            return in_some_form(rng, proved);
        }
    }
}

/// Large files are rare, for they take long to write.
fn rare_pair(rng: &mut Rng) -> (Vec<u8>, Vec<u8>) {
    match rng.below(4) {
        0 => {
            let (claim, proof) = limits(rng);
            (claim.bytes, proof.bytes)
        }
        1 => {
            let (claim, proof) = limits(rng);
            (claim.bytes, damage(rng, &proof))
        }
        2 => {
            let proved = hard_pair(rng);
            in_some_form(rng, proved)
        }
        _ => match rng.chance(1, 2) {
            true => (noise(rng, b"CLM1"), noise(rng, b"PRF1")),
            false => (noise(rng, b"CLM2"), noise(rng, b"PRF2")),
        },
    }
}

/// A hard claim proved from `true` beside it.
fn hard_pair(rng: &mut Rng) -> Proved {
    let mut entries = hard_entries(rng);
    entries.truncate(255);
    entries.push(Entry::new(Kind::True, 0, 0));
    let last = (entries.len() - 1) as u16;
    let member = 2 * last + 1;
    let mut root = DraftNode::new(Rule::W, member - 2, vec![member - 2, member]);
    root.first = 1;
    Proved {
        entries,
        members: vec![last - 1, last],
        nodes: vec![root, DraftNode::new(Rule::Ax2, 0, vec![member])],
    }
}

fn changed(rng: &mut Rng) -> Proved {
    let mut proved = if rng.chance(1, 2) {
        accepted(rng)
    } else {
        accepted_with_loop(rng)
    };
    for _ in 0..rng.between(1, 2) {
        near_miss(rng, &mut proved.nodes, &proved.entries);
    }
    proved
}

/// A good proof with the claim's members changed, or the root's sequent.
fn other_members(rng: &mut Rng) -> Proved {
    let mut proved = accepted(rng);
    if rng.chance(1, 2) {
        proved.members = any_members(rng, &proved.entries);
    } else if let Some(root) = proved.nodes.first_mut() {
        let at = rng.below(root.codes.len());
        root.codes[at] ^= 1;
    }
    proved
}

/// A good proof of a claim in which one box or diamond has another action, mostly
/// one of a box step.
fn other_action(rng: &mut Rng) -> Proved {
    let mut proved = accepted(rng);
    let steps = proved.nodes.iter().filter(|node| node.rule == Rule::Box);
    let stepping: Vec<usize> = steps
        .flat_map(|node| node.codes.iter().map(|&code| entry_of(code)))
        .collect();
    let at = match rng.chance(2, 3) {
        true => rng.pick(&stepping),
        false => None,
    };
    actions::change_one(rng, &mut proved.entries, at);
    proved
}

/// A claim with actions that are none; it may break the other conditions too.
fn unfit_claim(rng: &mut Rng) -> File {
    let claim = match rng.below(3) {
        0 => any_claim(rng, true),
        _ => provable(rng),
    };
    made_unfit(rng, claim)
}

fn made_unfit(rng: &mut Rng, mut claim: Provable) -> File {
    let written_out = actions::make_unfit(rng, &mut claim.entries);
    claim_file(rng, &claim.entries, &claim.members, &written_out)
}

fn wild_claim_file(rng: &mut Rng) -> File {
    let claim = wild_claim(rng);
    claim_file(rng, &claim.entries, &claim.members, &[])
}

/// A claim that may break scope, alternation, guardedness, bounds or actions.
pub fn wild_claim(rng: &mut Rng) -> Provable {
    let mut claim = any_claim(rng, true);
    if rng.chance(1, 3) {
        let at = rng.below(claim.entries.len());
        let count = claim.entries.len();
        let entry = &mut claim.entries[at];
        entry.a = match rng.below(4) {
            0 => at as u16,
            1 => count as u16,
            2 => 32,
            _ => rng.below(count + 1) as u16,
        };
        if rng.chance(1, 2) {
            entry.b = rng.below(count) as u16;
        }
    }
    claim
}

fn noise(rng: &mut Rng, opening: &[u8; 4]) -> Vec<u8> {
    let length = rng.below(60);
    let noise = (0..length).map(|_| rng.word() as u8 & 15);
    opening
        .iter()
        .copied()
        .chain(noise.collect::<Vec<_>>())
        .collect()
}

/// The bytes of a claim and a model.
pub fn eval_pair(rng: &mut Rng) -> (Vec<u8>, Vec<u8>) {
    let claim = match rng.below(20) {
        0 => hard_claim(rng),
        1..=3 => wild_claim(rng),
        4..=8 => provable(rng),
        _ => any_claim(rng, false),
    };
    let model = models::model_for(rng, &claim.entries);
    let file = match rng.below(20) {
        0 => claim_without_entries(rng),
        _ => claim_file(rng, &claim.entries, &claim.members, &[]),
    };
    match rng.below(11) {
        0..=5 => (file.bytes, model.bytes),
        6 => (damage(rng, &file), model.bytes),
        7 => (made_unfit(rng, claim).bytes, model.bytes),
        _ => (file.bytes, damaged_model(rng, &model)),
    }
}

/// A claim on the topmost of entries hard to walk.
fn hard_claim(rng: &mut Rng) -> Provable {
    let entries = hard_entries(rng);
    Provable {
        members: vec![(entries.len() - 1) as u16],
        dual: vec![None; entries.len()],
        valid: Bits::default(),
        entries,
    }
}

/// Byte damage, or one state too many, or none. Seldom the longest model, for it
/// takes long to write.
fn damaged_model(rng: &mut Rng, model: &File) -> Vec<u8> {
    let laid_down = rng.pick(&[draft::model, draft::action_model]);
    let laid_down = laid_down.unwrap_or(draft::model);
    match rng.below(48) {
        0..=3 => laid_down(&models::states(rng, 65, &[0, 3])).bytes,
        4..=7 => laid_down(&[]).bytes,
        8 => damage_end(rng, &longest_model()),
        _ => damage(rng, model),
    }
}

/// A well-formed table, small enough for slow methods; the last entry is closed.
pub fn small_entries(rng: &mut Rng) -> Vec<Entry> {
    let shape = Shape {
        size: rng.between(2, 12),
        depth: rng.between(2, 5),
        letters: 2,
        wild: false,
    };
    let mut builder = Builder::new(rng, shape);
    builder.formula(Scope::closed(), shape.depth);
    let mut entries = builder.entries;
    actions::spread(rng, &mut entries);
    entries
}

/// A well-formed claim and model, the claim small enough for slow methods.
pub fn small_eval_pair(rng: &mut Rng, states: usize) -> (Vec<u8>, Vec<u8>) {
    let entries = small_entries(rng);
    let root = (entries.len() - 1) as u16;
    let count = rng.between(1, states);
    let model = models::model_of(rng, count, &entries);
    (draft::claim(&entries, &[root]).bytes, model.bytes)
}
