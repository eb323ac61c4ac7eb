//! Proofs that come down to one step over a table with twins. Above it members
//! are only brought out of focus; what is below is no proof as a rule, so that
//! the place of the refusal tells whether the step was kept.

use super::pairs::{small_entries, Proved};
use super::rng::Rng;
use super::step::{children, Flaw};
use super::twins::twins;
use crate::alike::least_alike;
use crate::claim::{Entry, Kind, ACTIONS};
use crate::draft::DraftNode;
use crate::formula::free_names;
use crate::proof::Rule;
use crate::sequent::{entry_of, focused, in_focus, insert, member, remove, unfocused};

pub fn one_step(rng: &mut Rng) -> Proved {
    let plain = plain_table(rng);
    let mut entries = twins(rng, &plain).entries;
    let wanted = some_members(rng, &entries);
    let (members, preparation) = prepared(rng, &mut entries, &wanted);
    let root = members.iter().map(|&entry| focused(entry)).collect();
    let mut steps = Steps::new(rng, &entries, root);
    for (rule, principal) in preparation {
        steps.apply(rule, principal);
    }
    match steps.rng.below(5) {
        0 => steps.go_back(),
        _ => steps.end_in_a_step(),
    }
    let nodes = steps.nodes;
    Proved {
        members,
        nodes,
        entries,
    }
}

/// Any small formula, and entries for every rule, the boxes and diamonds mostly of
/// one action.
fn plain_table(rng: &mut Rng) -> Vec<Entry> {
    let mut entries = small_entries(rng);
    let leaves = [(Kind::Letter, 0), (Kind::Negated, 0), (Kind::True, 0)];
    entries.extend(leaves.map(|(kind, letter)| Entry::new(kind, letter, 0)));
    let action = rng.below(ACTIONS) as u16;
    for kind in [Kind::Box, Kind::Diamond, Kind::Diamond, Kind::Or, Kind::And] {
        let closed = closed(&entries);
        let [a, b] = [(); 2].map(|()| rng.pick(&closed).unwrap_or(0));
        entries.push(match kind {
            Kind::Or | Kind::And => Entry::new(kind, a, b),
            _ => Entry::new(kind, a, action ^ u16::from(rng.chance(1, 4))),
        });
    }
    entries
}

fn closed(entries: &[Entry]) -> Vec<u16> {
    let free = free_names(entries);
    let closed = |at: &usize| free[*at].first().is_none();
    let numbers = (0..entries.len()).filter(closed);
    numbers.map(|at| at as u16).collect()
}

/// The codes of a few entries of kinds that go together.
fn some_members(rng: &mut Rng, entries: &[Entry]) -> Vec<u16> {
    let fits: fn(Kind) -> bool = match rng.below(4) {
        0 => |kind| kind == Kind::True,
        1 => |kind| matches!(kind, Kind::Letter | Kind::Negated),
        2 => |kind| matches!(kind, Kind::Box | Kind::Diamond),
        _ => |kind| kind != Kind::Name,
    };
    let numbers = 0..entries.len() as u16;
    let fit: Vec<u16> = numbers
        .filter(|&at| fits(entries[usize::from(at)].kind))
        .collect();
    let count = rng.between(1, 4);
    let drawn = (0..count).filter_map(|_| Some(2 * rng.pick(&fit)? + u16::from(!rng.chance(1, 3))));
    drawn.collect()
}

/// The claim from whose members these can be made, and how: out of focus by U, and
/// in both focuses by U and or of the formula or itself.
fn prepared(
    rng: &mut Rng,
    entries: &mut Vec<Entry>,
    wanted: &[u16],
) -> (Vec<u16>, Vec<(Rule, u16)>) {
    let least = least_alike(entries);
    let closed = closed(entries);
    let (mut members, mut steps) = (Vec::new(), Vec::new());
    for &code in wanted {
        let formula = |code: u16| member(&least, code);
        let in_both = wanted
            .iter()
            .any(|&other| formula(other) == formula(code) ^ 1);
        let alike = |&&at: &&u16| least[usize::from(at)] == least[entry_of(code)];
        let twins: Vec<u16> = closed.iter().filter(alike).copied().collect();
        let entry = match rng.pick(&twins) {
            Some(twin) if in_both && !in_focus(code) && entries.len() < 256 => {
                entries.push(Entry::new(Kind::Or, code / 2, twin));
                let doubled = entries.len() as u16 - 1;
                steps.extend([(Rule::U, focused(doubled)), (Rule::Or, unfocused(doubled))]);
                doubled
            }
            _ => code / 2,
        };
        if entry == code / 2 && !in_focus(code) {
            steps.push((Rule::U, focused(entry)));
        }
        insert(&mut members, entry);
    }
    (members, steps)
}

struct Steps<'a> {
    rng: &'a mut Rng,
    entries: &'a [Entry],
    least: Vec<u16>,
    nodes: Vec<DraftNode>,
    /// That of the next node.
    sequent: Vec<u16>,
}

impl<'a> Steps<'a> {
    fn new(rng: &'a mut Rng, entries: &'a [Entry], root: Vec<u16>) -> Steps<'a> {
        Steps {
            rng,
            entries,
            least: least_alike(entries),
            nodes: Vec::new(),
            sequent: root,
        }
    }

    fn push(&mut self, rule: Rule, principal: u16, sequent: &[u16]) -> usize {
        let at = self.nodes.len();
        let mut node = DraftNode::new(rule, self.any_twin(principal), self.respelled(sequent));
        node.first = at as u16 + 1;
        node.second = at as u16 + 2;
        self.nodes.push(node);
        at
    }

    /// A code of the same formula and focus, no name's.
    fn any_twin(&mut self, code: u16) -> u16 {
        let (entries, least) = (self.entries, &self.least);
        let formula = least[entry_of(code)];
        let twins: Vec<u16> = (0..entries.len() as u16)
            .filter(|&at| least[usize::from(at)] == formula)
            .filter(|&at| entries[usize::from(at)].kind != Kind::Name)
            .collect();
        self.rng
            .pick(&twins)
            .map_or(code, |twin| 2 * twin + (code & 1))
    }

    fn respelled(&mut self, sequent: &[u16]) -> Vec<u16> {
        let mut codes = Vec::with_capacity(sequent.len());
        for &code in sequent {
            insert(&mut codes, self.any_twin(code));
            if self.rng.chance(1, 4) {
                insert(&mut codes, self.any_twin(code));
            }
        }
        codes
    }

    fn apply(&mut self, rule: Rule, principal: u16) {
        let sequent = std::mem::take(&mut self.sequent);
        self.push(rule, principal, &sequent);
        self.sequent = self.child(rule, principal, &sequent, 0);
    }

    fn child(&self, rule: Rule, principal: u16, sequent: &[u16], at: usize) -> Vec<u16> {
        let table = (self.entries, &self.least[..]);
        let children = children(table, Flaw::None, rule, principal, sequent);
        children.into_iter().nth(at).unwrap_or_default()
    }

    /// D, perhaps a step that changes the sequent, and a leaf linked to the D: 39
    /// if it has that one's sequent, for there is no box between.
    fn go_back(&mut self) {
        let companion = self.push(Rule::D, 1, &self.sequent.clone());
        if let (Some(code), true) = (self.rng.pick(&self.sequent), self.rng.chance(2, 3)) {
            let change = [Rule::U, Rule::F][usize::from(!in_focus(code))];
            let rule = self.rng.pick(&[Rule::W, change]).unwrap_or(change);
            self.apply(rule, code);
        }
        let leaf = self.push(Rule::Back, 1, &self.sequent.clone());
        self.nodes[leaf].back = companion as u16;
    }

    /// Some rule, and leaves with the sequents that it asks for, or nearly.
    fn end_in_a_step(&mut self) {
        let sequent = self.sequent.clone();
        let (rule, principal) = self.some_rule(&sequent);
        self.push(rule, principal, &sequent);
        for at in 0..rule.children() {
            let mut child = self.child(rule, principal, &sequent, at);
            if self.rng.chance(1, 3) {
                self.change(&mut child, principal);
            }
            let leaf = self.rng.pick(&[Rule::Ax1, Rule::Ax2, Rule::Back]);
            self.push(leaf.unwrap_or(Rule::Ax1), 1, &child);
        }
    }

    /// An axiom or D, or a rule with a principal of its kind.
    fn some_rule(&mut self, sequent: &[u16]) -> (Rule, u16) {
        let rule = match self.rng.below(3) {
            0 => self.rng.pick(&[Rule::Ax1, Rule::Ax2, Rule::D]),
            _ => self.rng.pick(&Rule::ALL[2..10]),
        };
        let rule = rule.unwrap_or(Rule::W);
        let kind = |code: u16| self.entries[entry_of(code)].kind;
        let fits = |code: &u16| rule.kind().is_none_or(|named| kind(*code) == named);
        let fit: Vec<u16> = sequent.iter().copied().filter(fits).collect();
        match self.rng.pick(&fit) {
            Some(code) => (rule, code),
            None => (Rule::D, 1),
        }
    }

    /// The principal stays, or a code is missing or in the other focus.
    fn change(&mut self, child: &mut Vec<u16>, principal: u16) {
        let code = self.rng.pick(child).unwrap_or(principal);
        match self.rng.below(4) {
            0 => insert(child, principal),
            1 => remove(child, code),
            2 => insert(child, code ^ 1),
            _ => {
                remove(child, code);
                insert(child, code ^ 1);
            }
        }
    }
}
