//! The roots and the rules, judged on a decoded proof (refusals 36 and 37, with
//! the loops' 38 and 39 in their order). Everything here goes by members, which
//! are compared by formula; the codes of the file are not looked at again.

use crate::alike::least_alike;
use crate::claim::{may_be_member, Claim, Entry, Kind};
use crate::loops::Loops;
use crate::proof::{Node, Proof, Rule};
use crate::refusal::Refusal;
use crate::sequent::{
    entry_of, focused, in_focus, insert, member, members, remove, unfocused, with_focus_of,
    Sequents,
};
use crate::tree;

/// "35 by rising parent ..., then by rising orphan; 36; 37 or 38 by rising
/// node; 39 by rising leaf." T-05: "Refusal 36 gives the root's number as its
/// place." The entries have passed 20 to 23.
pub fn judge(claim: &Claim, proof: &Proof) -> Result<(), Refusal> {
    let parents = tree::parents(&proof.nodes, proof.roots())?;
    let least = least_alike(&claim.entries);
    let sequents = Sequents::read(proof, &least);
    let mut rules = Rules::new(&claim.entries, &least, &sequents);
    for (goal, &root) in claim.goals().zip(proof.roots()) {
        if !rules.root_is_goal(root, goal) {
            return Err(Refusal::new(36, root.into()));
        }
    }
    let loops = Loops::new(proof, &sequents, &parents);
    for (number, node) in proof.nodes.iter().enumerate() {
        if node.rule == Rule::Back {
            if !loops.has_companion(number) {
                return Err(Refusal::new(38, number));
            }
        } else if !rules.kept(number, node) {
            return Err(Refusal::new(37, number));
        }
    }
    loops.judge_paths()
}

struct Rules<'a> {
    entries: &'a [Entry],
    /// For each entry the least that is the same formula.
    least: &'a [u16],
    sequents: &'a Sequents,
    /// The sequent a root or child must have, kept to spare an allocation for each.
    wanted: Vec<u16>,
}

impl<'a> Rules<'a> {
    fn new(entries: &'a [Entry], least: &'a [u16], sequents: &'a Sequents) -> Rules<'a> {
        Rules {
            entries,
            least,
            sequents,
            wanted: Vec::with_capacity(32),
        }
    }

    fn entry(&self, member: u16) -> Entry {
        self.entries[entry_of(member)]
    }

    /// "The root's members are the claim's, all in focus", or the members of its goal.
    fn root_is_goal(&mut self, root: u16, goal: &[u16]) -> bool {
        let codes = goal.iter().map(|&entry| focused(entry));
        members(self.least, codes, &mut self.wanted);
        self.sequents.of(root.into()) == self.wanted
    }

    fn kept(&mut self, number: usize, node: &Node) -> bool {
        let sequent = self.sequents.of(number);
        match node.rule {
            Rule::Ax1 => self.is_ax1(sequent),
            Rule::Ax2 => matches!(sequent, [only] if self.entry(*only).kind == Kind::True),
            Rule::D => self.child_of(node.first) == sequent,
            _ => self
                .principal(node, sequent)
                .is_some_and(|principal| self.step_kept(node, sequent, principal)),
        }
    }

    /// "exactly a letter and its negation, either focus"
    fn is_ax1(&self, sequent: &[u16]) -> bool {
        let &[one, other] = sequent else {
            return false;
        };
        let (one, other) = (self.entry(one), self.entry(other));
        let kinds = (one.kind, other.kind);
        one.a == other.a
            && (kinds == (Kind::Letter, Kind::Negated) || kinds == (Kind::Negated, Kind::Letter))
    }

    /// The principal "must belong to it and, for rules 2 to 6, be of the kind
    /// the rule names". "A principal that is a name or out of range still gets
    /// 37", though a name is the same formula as its fixpoint.
    fn principal(&self, node: &Node, sequent: &[u16]) -> Option<u16> {
        if !may_be_member(self.entries, node.principal / 2) {
            return None;
        }
        let principal = member(self.least, node.principal);
        let fits = |kind| self.entry(principal).kind == kind;
        (sequent.binary_search(&principal).is_ok() && node.rule.kind().is_none_or(fits))
            .then_some(principal)
    }

    fn step_kept(&mut self, node: &Node, sequent: &[u16], principal: u16) -> bool {
        let Entry { a, b, .. } = self.entry(principal);
        match node.rule {
            Rule::Or => {
                let (a, b) = (self.kept_focus(a, principal), self.kept_focus(b, principal));
                self.side_plus(node.first, sequent, principal, &[a, b])
            }
            Rule::And => {
                let (a, b) = (self.kept_focus(a, principal), self.kept_focus(b, principal));
                self.side_plus(node.first, sequent, principal, &[a])
                    && self.side_plus(node.second, sequent, principal, &[b])
            }
            Rule::Box => self.box_kept(node, sequent, principal),
            Rule::Mu => {
                let body = unfocused(self.target(a));
                self.side_plus(node.first, sequent, principal, &[body])
            }
            Rule::Nu => {
                let body = self.kept_focus(a, principal);
                self.side_plus(node.first, sequent, principal, &[body])
            }
            Rule::W => self.side_plus(node.first, sequent, principal, &[]),
            Rule::F => {
                !in_focus(principal)
                    && self.side_plus(node.first, sequent, principal, &[principal + 1])
            }
            Rule::U => {
                in_focus(principal)
                    && self.side_plus(node.first, sequent, principal, &[principal - 1])
            }
            Rule::Ax1 | Rule::Ax2 | Rule::D | Rule::Back => false,
        }
    }

    /// "the principal is a box, all others are diamonds; the child has the
    /// targets of the principal and of those diamonds, each with its focus".
    /// T-04: "diamonds of the principal's own action".
    fn box_kept(&mut self, node: &Node, sequent: &[u16], principal: u16) -> bool {
        let action = self.entry(principal).b;
        self.wanted.clear();
        for &member in sequent {
            let entry = self.entry(member);
            if member != principal && (entry.kind != Kind::Diamond || entry.b != action) {
                return false;
            }
            let target = self.kept_focus(entry.a, member);
            insert(&mut self.wanted, target);
        }
        self.child_of(node.first) == self.wanted
    }

    /// "The target of an operand is the operand, or its fixpoint if it is a
    /// name." The two are one formula then.
    fn target(&self, operand: u16) -> u16 {
        self.least[usize::from(operand)]
    }

    /// An operand's target, with the focus of a member.
    fn kept_focus(&self, operand: u16, member: u16) -> u16 {
        with_focus_of(self.target(operand), member)
    }

    /// Whether the child is the side together with `added`, as a set. "The side
    /// is the sequent without the principal": the same formula in the other
    /// focus stays.
    fn side_plus(&mut self, child: u16, sequent: &[u16], principal: u16, added: &[u16]) -> bool {
        self.wanted.clear();
        self.wanted.extend_from_slice(sequent);
        remove(&mut self.wanted, principal);
        for &member in added {
            insert(&mut self.wanted, member);
        }
        self.child_of(child) == self.wanted
    }

    /// A child's sequent; the tree is known to be good.
    fn child_of(&self, child: u16) -> &'a [u16] {
        self.sequents.of(usize::from(child))
    }
}
