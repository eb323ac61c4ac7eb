//! A proof search for claims that hold. It saturates, steps through a box, and
//! closes a branch by an axiom or by a loop; choices are random, so that one
//! claim has many proofs.

use super::provable::Provable;
use super::rng::Rng;
use super::step::{self, Flaw};
use crate::claim::{Entry, Kind};
use crate::proof::Rule;
use crate::sequent::{entry_of, focused, in_focus, member, members};

/// Attempts before a search ends, and the longest branch.
const ATTEMPTS: usize = 500;
const DEPTH: usize = 120;
const MEMBERS: usize = 24;

/// A node of the tree found. A companion gets a D node above it later.
#[derive(Clone, Debug)]
pub struct Step {
    pub rule: Rule,
    pub principal: u16,
    pub sequent: Vec<u16>,
    pub children: Vec<usize>,
    pub link: usize,
    pub companion: bool,
}

/// Where a branch is headed: anywhere, or to a step through one box.
#[derive(Clone, Copy, PartialEq, Eq)]
enum Goal {
    Any,
    Box(u16),
}

enum Choice {
    Leaf(Rule),
    Apply(Rule, u16),
    Modal,
}

pub struct Search<'a> {
    rng: &'a mut Rng,
    claim: &'a Provable,
    flaw: Flaw,
    /// For each entry the least that is taken for the same formula.
    least: &'a [u16],
    steps: Vec<Step>,
    path: Vec<usize>,
    attempts: usize,
    /// How many needless steps may still be made.
    ornaments: usize,
}

/// Searches a proof of the claim; the root is the first step. Members are
/// compared by the least entries given.
pub fn search(rng: &mut Rng, claim: &Provable, least: &[u16], flaw: Flaw) -> Option<Vec<Step>> {
    let ornaments = rng.below(5);
    let mut search = Search {
        rng,
        claim,
        flaw,
        least,
        steps: Vec::new(),
        path: Vec::new(),
        attempts: 0,
        ornaments,
    };
    let root = claim
        .members
        .iter()
        .map(|&member| focused(member))
        .collect();
    search.prove(root, Goal::Any)?;
    Some(search.steps)
}

impl Search<'_> {
    fn entry(&self, code: u16) -> Entry {
        self.claim.entries[entry_of(code)]
    }

    fn member(&self, code: u16) -> u16 {
        member(self.least, code)
    }

    fn members(&self, sequent: &[u16]) -> Vec<u16> {
        let mut set = Vec::with_capacity(sequent.len());
        members(self.least, sequent.iter().copied(), &mut set);
        set
    }

    /// The flaw, at some places only, so that a good loop can come before a bad
    /// one.
    fn flaw_now(&mut self) -> Flaw {
        if self.flaw != Flaw::None && self.rng.chance(1, 3) {
            Flaw::None
        } else {
            self.flaw
        }
    }

    fn prove(&mut self, sequent: Vec<u16>, goal: Goal) -> Option<usize> {
        self.attempts += 1;
        if sequent.len() > MEMBERS {
            return None;
        }
        if self.attempts > ATTEMPTS || self.path.len() > DEPTH {
            return self.give_up(sequent);
        }
        if let Goal::Box(principal) = goal {
            return self.toward_box(sequent, principal);
        }
        if let Some(companion) = self.loop_start(&sequent) {
            self.steps[companion].companion = true;
            return Some(self.push(Rule::Back, 0, sequent, companion));
        }
        match self.choose(&sequent) {
            Choice::Leaf(rule) => Some(self.push(rule, 0, sequent, 0)),
            Choice::Apply(rule, principal) => self.apply(rule, principal, sequent, Goal::Any),
            Choice::Modal => self.modal(sequent),
        }
    }

    fn push(&mut self, rule: Rule, principal: u16, sequent: Vec<u16>, link: usize) -> usize {
        self.steps.push(Step {
            rule,
            principal,
            sequent,
            children: Vec::new(),
            link,
            companion: false,
        });
        self.steps.len() - 1
    }

    /// Makes a step and proves its children; takes it back if one fails.
    fn apply(
        &mut self,
        rule: Rule,
        principal: u16,
        sequent: Vec<u16>,
        goal: Goal,
    ) -> Option<usize> {
        let flaw = self.flaw_now();
        let table = (&self.claim.entries[..], self.least);
        let children = step::children(table, flaw, rule, principal, &sequent);
        let at = self.push(rule, principal, sequent, 0);
        self.path.push(at);
        for child in children {
            match self.prove(child, goal) {
                Some(child) => self.steps[at].children.push(child),
                None => {
                    self.path.pop();
                    self.steps.truncate(at);
                    return None;
                }
            }
        }
        self.path.pop();
        Some(at)
    }

    /// A branch that cannot be closed: no proof, or any leaf as a flaw.
    fn give_up(&mut self, sequent: Vec<u16>) -> Option<usize> {
        if self.flaw != Flaw::GivesUp {
            return None;
        }
        let rule = self.rng.pick(&[Rule::Ax1, Rule::Ax2, Rule::Back])?;
        let link = self.rng.pick(&self.path).unwrap_or(0);
        Some(self.push(rule, 0, sequent, link))
    }

    /// An ancestor with this sequent, such that the path from it is a good loop.
    fn loop_start(&mut self, sequent: &[u16]) -> Option<usize> {
        let flaw = self.flaw_now();
        let focus_needed = flaw != Flaw::LoopWithoutFocus;
        if focus_needed && !step::has_focus(sequent) {
            return None;
        }
        let mut boxed = flaw == Flaw::LoopWithoutBox;
        let leaf = self.members(sequent);
        let mut starts = Vec::new();
        for &at in self.path.iter().rev() {
            let step = &self.steps[at];
            if step.rule == Rule::F && flaw != Flaw::LoopThroughF {
                break;
            }
            if focus_needed && !step::has_focus(&step.sequent) {
                break;
            }
            boxed |= step.rule == Rule::Box;
            if boxed && closes(flaw, self.members(&step.sequent), &leaf) {
                starts.push(at);
            }
        }
        if flaw == Flaw::LoopAcross {
            starts = self.starts_elsewhere(&leaf);
        }
        if self.rng.chance(1, 10) {
            return None;
        }
        self.rng.pick(&starts)
    }

    /// Steps with these members that are no ancestors.
    fn starts_elsewhere(&self, leaf: &[u16]) -> Vec<usize> {
        (0..self.steps.len())
            .filter(|at| self.members(&self.steps[*at].sequent) == leaf && !self.path.contains(at))
            .collect()
    }

    fn choose(&mut self, sequent: &[u16]) -> Choice {
        if let Some((rule, needed)) = step::axiom(&self.claim.entries, sequent) {
            let flawed = self.flaw_now() == Flaw::AxiomWithMore;
            return match self.any_but(sequent, &needed) {
                Some(other) if !flawed => Choice::Apply(Rule::W, other),
                _ => Choice::Leaf(rule),
            };
        }
        self.choose_weakening(sequent)
            .or_else(|| self.choose_focus(sequent))
            .or_else(|| self.choose_ornament(sequent))
            .or_else(|| self.choose_unfolding(sequent))
            .unwrap_or(Choice::Modal)
    }

    fn any_but(&mut self, sequent: &[u16], needed: &[u16]) -> Option<u16> {
        let needed = self.members(needed);
        let others: Vec<u16> = sequent
            .iter()
            .copied()
            .filter(|&code| !needed.contains(&self.member(code)))
            .collect();
        self.rng.pick(&others)
    }

    /// Drops what is not needed: the unfocused one of two copies, or a member
    /// beside those the claim is known to hold by.
    fn choose_weakening(&mut self, sequent: &[u16]) -> Option<Choice> {
        let members = self.members(sequent);
        let focused_too =
            |&code: &u16| !in_focus(code) && members.contains(&(self.member(code) ^ 1));
        let copy = sequent.iter().copied().find(focused_too);
        let drops = self.flaw != Flaw::BoxKeepsCopy && self.rng.chance(4, 5);
        if let (Some(copy), true) = (copy, drops) {
            return Some(Choice::Apply(Rule::W, copy));
        }
        if !self.rng.chance(2, 3) {
            return None;
        }
        let kernel = self.kernel(sequent)?;
        let other = self.any_but(sequent, &kernel)?;
        Some(Choice::Apply(self.spare(other), other))
    }

    /// The rule for a spare member: W, or U first, inside a loop or out of it.
    fn spare(&mut self, code: u16) -> Rule {
        if in_focus(code) && self.rng.chance(1, 2) {
            Rule::U
        } else {
            Rule::W
        }
    }

    /// Members that suffice: one known to be valid, or one and its negation.
    fn kernel(&self, sequent: &[u16]) -> Option<Vec<u16>> {
        let valid = |code: &&u16| self.claim.valid.contains(entry_of(**code));
        let best = sequent
            .iter()
            .filter(valid)
            .max_by_key(|&&code| in_focus(code));
        if let Some(&code) = best {
            return Some(vec![code]);
        }
        sequent.iter().find_map(|&code| {
            let other = self.dual_of(code, sequent)?;
            Some(vec![code, other])
        })
    }

    /// A code of the formula that is known to be the negation of this one's.
    fn dual_of(&self, code: u16, sequent: &[u16]) -> Option<u16> {
        let dual = self.claim.dual[entry_of(code)]?;
        let formula = |entry: u16| self.least[usize::from(entry)];
        let mut codes = sequent.iter().copied();
        codes.find(|&other| formula(other / 2) == formula(dual))
    }

    /// Puts everything back into focus once nothing is.
    fn choose_focus(&mut self, sequent: &[u16]) -> Option<Choice> {
        let last = self.path.last().map(|&at| self.steps[at].rule);
        let wanted = !step::has_focus(sequent) || last == Some(Rule::F);
        if !wanted || self.flaw_now() == Flaw::LoopWithoutFocus {
            return None;
        }
        let out: Vec<u16> = sequent.iter().copied().filter(|&c| !in_focus(c)).collect();
        self.rng.pick(&out).map(|code| Choice::Apply(Rule::F, code))
    }

    /// A needless step now and then.
    fn choose_ornament(&mut self, sequent: &[u16]) -> Option<Choice> {
        if self.ornaments == 0 || !self.rng.chance(1, 8) {
            return None;
        }
        self.ornaments -= 1;
        let code = self.rng.pick(sequent)?;
        let change = if in_focus(code) { Rule::U } else { Rule::F };
        let rule = if self.rng.chance(1, 2) {
            Rule::D
        } else {
            change
        };
        Some(Choice::Apply(rule, code))
    }

    fn choose_unfolding(&mut self, sequent: &[u16]) -> Option<Choice> {
        let steps: Vec<(Rule, u16)> = sequent
            .iter()
            .filter_map(|&code| Some((unfolding(self.entry(code).kind)?, code)))
            .collect();
        let (rule, code) = self.rng.pick(&steps)?;
        Some(Choice::Apply(rule, code))
    }

    /// Tries the boxes in turn, those with a dual diamond first.
    fn modal(&mut self, sequent: Vec<u16>) -> Option<usize> {
        let mut boxes: Vec<u16> = sequent
            .iter()
            .copied()
            .filter(|&code| self.entry(code).kind == Kind::Box)
            .collect();
        self.rng.shuffle(&mut boxes);
        boxes.sort_by_key(|&code| {
            let paired = self.dual_of(code, &sequent).is_some();
            !(paired || self.claim.valid.contains(entry_of(code)))
        });
        for principal in boxes {
            let found = self.prove(sequent.clone(), Goal::Box(principal));
            if found.is_some() {
                return found;
            }
        }
        self.give_up(sequent)
    }

    /// Weakens to the box and the diamonds of its action, then makes the box step.
    fn toward_box(&mut self, sequent: Vec<u16>, principal: u16) -> Option<usize> {
        let mut kept: Vec<u16> = sequent.clone();
        kept.retain(|&code| self.goes_with_box(code, principal));
        match self.any_but(&sequent, &kept) {
            Some(other) => {
                let rule = self.spare(other);
                self.apply(rule, other, sequent, Goal::Box(principal))
            }
            None => self.apply(Rule::Box, principal, sequent, Goal::Any),
        }
    }

    fn goes_with_box(&self, code: u16, principal: u16) -> bool {
        let kind = self.entry(code).kind;
        let (member, boxed) = (self.member(code), self.member(principal));
        member == boxed
            || step::follows(&self.claim.entries, self.flaw, code, principal)
            || match self.flaw {
                Flaw::BoxKeepsBoxes => kind == Kind::Box,
                Flaw::BoxKeepsCopy => member ^ 1 == boxed,
                Flaw::BoxDropsOthers => true,
                _ => false,
            }
    }
}

/// Whether a leaf with these members may go back to a start with those.
fn closes(flaw: Flaw, start: Vec<u16>, leaf: &[u16]) -> bool {
    match flaw {
        Flaw::LoopInOtherFocus => start != leaf && entries_of(&start) == entries_of(leaf),
        _ => start == leaf,
    }
}

fn entries_of(members: &[u16]) -> Vec<u16> {
    let mut entries: Vec<u16> = members.iter().map(|member| member / 2).collect();
    entries.dedup();
    entries
}

/// The rule that takes a formula apart without loss.
fn unfolding(kind: Kind) -> Option<Rule> {
    match kind {
        Kind::Or => Some(Rule::Or),
        Kind::And => Some(Rule::And),
        Kind::Mu => Some(Rule::Mu),
        Kind::Nu => Some(Rule::Nu),
        _ => None,
    }
}
