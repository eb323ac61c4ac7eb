//! One step of a proof under construction, right or flawed on purpose.

use crate::claim::{Entry, Kind};
use crate::proof::Rule;
use crate::sequent::{entry_of, in_focus, insert, member};

/// A mistake that the search makes on purpose.
#[derive(Clone, Copy, Debug, PartialEq, Eq)]
pub enum Flaw {
    None,
    /// Loops whose path has a sequent without focus.
    LoopWithoutFocus,
    /// Loops whose path has no box step.
    LoopWithoutBox,
    /// Loops whose path brings focus into being by F.
    LoopThroughF,
    /// Back leaves linked to a D on another branch.
    LoopAcross,
    /// Back leaves linked to an ancestor that is no D.
    LoopWithoutCompanion,
    /// Mu unfolded with its focus kept.
    MuKeepsFocus,
    /// A box step that keeps the other boxes.
    BoxKeepsBoxes,
    /// A box step beside the same box in the other focus.
    BoxKeepsCopy,
    /// A box step made without weakening the others away.
    BoxDropsOthers,
    /// A box step that keeps diamonds of other actions.
    BoxOfAnyAction,
    /// An axiom with members beside it.
    AxiomWithMore,
    /// Back leaves linked to a D with the same formulas, not all in the same
    /// focus.
    LoopInOtherFocus,
    /// A branch that will not close ends in any leaf.
    GivesUp,
}

pub const FLAWS: [Flaw; 13] = [
    Flaw::LoopWithoutFocus,
    Flaw::LoopWithoutBox,
    Flaw::LoopThroughF,
    Flaw::LoopAcross,
    Flaw::LoopWithoutCompanion,
    Flaw::MuKeepsFocus,
    Flaw::BoxKeepsBoxes,
    Flaw::BoxKeepsCopy,
    Flaw::BoxDropsOthers,
    Flaw::BoxOfAnyAction,
    Flaw::AxiomWithMore,
    Flaw::LoopInOtherFocus,
    Flaw::GivesUp,
];

/// The entries, and for each the least that is taken for the same formula.
type Table<'a> = (&'a [Entry], &'a [u16]);

/// The sequents of the children that a rule with this principal asks for.
pub fn children(
    (entries, least): Table,
    flaw: Flaw,
    rule: Rule,
    principal: u16,
    sequent: &[u16],
) -> Vec<Vec<u16>> {
    let Entry { a, b, .. } = entries[entry_of(principal)];
    let focus = principal & 1;
    let keeping = |operand: u16| target(entries, operand) * 2 + focus;
    let side_plus = |added: &[u16]| {
        let mut child = sequent.to_vec();
        child.retain(|&code| member(least, code) != member(least, principal));
        added.iter().for_each(|&code| insert(&mut child, code));
        child
    };
    match rule {
        Rule::Or => vec![side_plus(&[keeping(a), keeping(b)])],
        Rule::And => vec![side_plus(&[keeping(a)]), side_plus(&[keeping(b)])],
        Rule::Box => vec![box_child((entries, least), flaw, sequent, principal)],
        Rule::Mu if flaw != Flaw::MuKeepsFocus => {
            vec![side_plus(&[target(entries, a) * 2])]
        }
        Rule::Mu | Rule::Nu => vec![side_plus(&[keeping(a)])],
        Rule::W => vec![side_plus(&[])],
        Rule::F | Rule::U => vec![side_plus(&[principal ^ 1])],
        Rule::D => vec![sequent.to_vec()],
        Rule::Ax1 | Rule::Ax2 | Rule::Back => Vec::new(),
    }
}

fn box_child((entries, least): Table, flaw: Flaw, sequent: &[u16], principal: u16) -> Vec<u16> {
    let mut child = Vec::new();
    for &code in sequent {
        let entry = entries[entry_of(code)];
        let same = |other: u16| member(least, other) == member(least, principal);
        let copy = flaw == Flaw::BoxKeepsCopy && same(code ^ 1);
        if same(code) || copy || follows(entries, flaw, code, principal) {
            insert(&mut child, target(entries, entry.a) * 2 + (code & 1));
        } else if flaw == Flaw::BoxKeepsBoxes {
            insert(&mut child, code);
        }
    }
    child
}

/// Whether a box step takes a code along as one of the others: a diamond of the
/// principal's action.
pub fn follows(entries: &[Entry], flaw: Flaw, code: u16, principal: u16) -> bool {
    let entry = entries[entry_of(code)];
    let action = entries[entry_of(principal)].b;
    entry.kind == Kind::Diamond && (entry.b == action || flaw == Flaw::BoxOfAnyAction)
}

pub fn target(entries: &[Entry], operand: u16) -> u16 {
    let entry = entries[usize::from(operand)];
    match entry.kind {
        Kind::Name => entry.a,
        _ => operand,
    }
}

pub fn has_focus(sequent: &[u16]) -> bool {
    sequent.iter().any(|&code| in_focus(code))
}

/// The axiom inside a sequent: its rule and the codes it needs.
pub fn axiom(entries: &[Entry], sequent: &[u16]) -> Option<(Rule, Vec<u16>)> {
    let entry = |code: u16| entries[entry_of(code)];
    for &code in sequent {
        match entry(code).kind {
            Kind::True => return Some((Rule::Ax2, vec![code])),
            Kind::Letter => {
                let negation = Entry::new(Kind::Negated, entry(code).a, 0);
                if let Some(&other) = sequent.iter().find(|&&other| entry(other) == negation) {
                    return Some((Rule::Ax1, vec![code, other]));
                }
            }
            _ => {}
        }
    }
    None
}
