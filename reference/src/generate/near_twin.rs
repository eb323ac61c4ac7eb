//! Small changes to a proof or its claim that tell formulas from entry numbers,
//! one focus from the other, and a fixpoint from its name.

use super::pairs::Proved;
use super::rng::Rng;
use crate::alike::least_alike;
use crate::claim::Kind;
use crate::draft::DraftNode;
use crate::sequent::{entry_of, insert, remove, with_focus_of};

const MEMBERS: usize = 24;

/// One change; some leave the proof as good as it was.
pub fn near_twin(rng: &mut Rng, proved: &mut Proved) {
    match rng.below(6) {
        0 => name_as_principal(rng, proved),
        1 => principal_beyond_the_table(rng, proved),
        2 => twin_as_principal(rng, proved),
        3 => twin_as_code(rng, proved),
        4 => twin_in_the_root(rng, proved),
        _ => change_members(rng, proved),
    }
}

/// Puts a name in the place of its fixpoint as principal: it is the same formula,
/// but no member.
fn name_as_principal(rng: &mut Rng, proved: &mut Proved) {
    let entries = &proved.entries;
    let names = (0..entries.len() as u16).filter(|&at| entries[usize::from(at)].kind == Kind::Name);
    let fixpoint = |name: u16| entries[usize::from(name)].a;
    let least = least_alike(entries);
    let fits = |node: &DraftNode, name: u16| {
        let entry = least.get(entry_of(node.principal));
        node.rule.low_bits() & 1 == 1 && entry == Some(&least[usize::from(fixpoint(name))])
    };
    let places: Vec<(usize, u16)> = names
        .flat_map(|name| (0..proved.nodes.len()).map(move |at| (at, name)))
        .filter(|&(at, name)| fits(&proved.nodes[at], name))
        .collect();
    if let Some((at, name)) = rng.pick(&places) {
        let node = &mut proved.nodes[at];
        node.principal = with_focus_of(name, node.principal);
    }
}

/// A principal that is no entry, though it would be one if less of its number
/// were looked at.
fn principal_beyond_the_table(rng: &mut Rng, proved: &mut Proved) {
    let count = 2 * proved.entries.len() as u16;
    let more = rng.pick(&[count, 512, 1024, 32768, 65024]).unwrap_or(count);
    if let Some(node) = any_with_principal(rng, proved) {
        node.principal = node.principal.wrapping_add(more);
    }
}

/// A principal of the same formula under any number, in this focus or the other.
fn twin_as_principal(rng: &mut Rng, proved: &mut Proved) {
    let least = least_alike(&proved.entries);
    let other_focus = rng.below(2) as u16;
    if let Some(node) = any_with_principal(rng, proved) {
        let twins = twins_of(&least, node.principal);
        let twin = rng.pick(&twins).unwrap_or(node.principal);
        node.principal = twin ^ other_focus;
    }
}

/// A code in place of one of the same formula, or beside it, in this focus or the
/// other.
fn twin_as_code(rng: &mut Rng, proved: &mut Proved) {
    let at = rng.below(proved.nodes.len());
    change_codes(rng, proved, at);
}

fn twin_in_the_root(rng: &mut Rng, proved: &mut Proved) {
    change_codes(rng, proved, 0);
}

fn change_codes(rng: &mut Rng, proved: &mut Proved, at: usize) {
    let least = least_alike(&proved.entries);
    let codes = &mut proved.nodes[at].codes;
    let Some(code) = rng.pick(codes) else {
        return;
    };
    let names = |twin: &u16| proved.entries[entry_of(*twin)].kind != Kind::Name;
    let twins: Vec<u16> = twins_of(&least, code).into_iter().filter(names).collect();
    let twin = rng.pick(&twins).unwrap_or(code);
    if codes.len() == MEMBERS || rng.chance(1, 2) {
        remove(codes, code);
    }
    insert(codes, twin ^ rng.below(2) as u16);
}

/// A member of the claim more or less, perhaps the same formula as another.
fn change_members(rng: &mut Rng, proved: &mut Proved) {
    let no_name = |at: &u16| proved.entries[usize::from(*at)].kind != Kind::Name;
    let entries: Vec<u16> = (0..proved.entries.len() as u16).filter(no_name).collect();
    let members = &mut proved.members;
    if members.len() == MEMBERS || (rng.chance(1, 2) && members.len() > 1) {
        members.remove(rng.below(members.len()));
    } else if let Some(entry) = rng.pick(&entries) {
        insert(members, entry);
    }
}

/// The codes of all entries of the same formula, in the same focus.
fn twins_of(least: &[u16], code: u16) -> Vec<u16> {
    let formula = least.get(entry_of(code)).copied();
    let entries = (0..least.len() as u16).filter(|&at| Some(least[usize::from(at)]) == formula);
    entries.map(|at| with_focus_of(at, code)).collect()
}

fn any_with_principal<'a>(rng: &mut Rng, proved: &'a mut Proved) -> Option<&'a mut DraftNode> {
    let nodes = &mut proved.nodes;
    let with = |at: &usize| nodes[*at].rule.low_bits() & 1 == 1;
    let found: Vec<usize> = (0..nodes.len()).filter(with).collect();
    let at = rng.pick(&found)?;
    nodes.get_mut(at)
}
