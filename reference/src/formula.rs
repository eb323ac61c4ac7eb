//! Entries as formulas: bounds, actions, free names, alternation and guardedness
//! (refusals 20 to 23 and 71).

use crate::bits::Bits;
use crate::claim::{Claim, Entry, Kind, ACTIONS};
use crate::refusal::Refusal;

const LETTERS: u16 = 32;

/// The entries of a claim as it was read.
pub fn judge_read(claim: &Claim) -> Result<(), Refusal> {
    judge_all(&claim.entries, claim.written_out)
}

/// Entries of which none has a 0 written out.
pub fn judge(entries: &[Entry]) -> Result<(), Refusal> {
    judge_all(entries, None)
}

/// "20 over all entries", with 71 "judged after 20 at each entry in the same
/// walk"; "21, 22, 23 entry by entry"
fn judge_all(entries: &[Entry], written_out: Option<usize>) -> Result<(), Refusal> {
    for (number, entry) in entries.iter().enumerate() {
        if !in_bounds(entries, number, entry) {
            return Err(Refusal::new(20, number));
        }
        if !action_fits(entry) || written_out == Some(number) {
            return Err(Refusal::new(71, number));
        }
    }
    let mut below = Vec::with_capacity(entries.len());
    for (number, entry) in entries.iter().enumerate() {
        let names = names_at(number, entry, &below);
        judge_names(entries, number, entry, &names)?;
        below.push(names);
    }
    Ok(())
}

/// "Operands and bodies lie below their entry; a name's fixpoint lies above it."
fn in_bounds(entries: &[Entry], number: usize, entry: &Entry) -> bool {
    let (a, b) = (usize::from(entry.a), usize::from(entry.b));
    match entry.kind {
        Kind::False | Kind::True => true,
        Kind::Letter | Kind::Negated => entry.a < LETTERS,
        Kind::Or | Kind::And => a < number && b < number,
        Kind::Diamond | Kind::Box | Kind::Mu | Kind::Nu => a < number,
        Kind::Name => a > number && entries.get(a).is_some_and(|f| f.kind.is_fixpoint()),
    }
}

/// "71, an action above 15 or a 0 written out in B"
fn action_fits(entry: &Entry) -> bool {
    !entry.kind.is_modal() || usize::from(entry.b) < ACTIONS
}

/// The names an entry leaves open. Kept for every entry, so that operands used
/// many times are walked once.
#[derive(Clone, Copy, Default)]
struct Names {
    free: Bits,
    /// Reached without a box or diamond on the way.
    bare: Bits,
}

fn judge_names(
    entries: &[Entry],
    number: usize,
    entry: &Entry,
    names: &Names,
) -> Result<(), Refusal> {
    if names.free.iter().any(|name| name <= number) {
        return Err(Refusal::new(21, number));
    }
    if entry.kind.is_fixpoint() {
        if names
            .free
            .iter()
            .any(|name| entries[name].kind != entry.kind)
        {
            return Err(Refusal::new(22, number));
        }
        if names.bare.contains(number) {
            return Err(Refusal::new(23, number));
        }
    }
    Ok(())
}

/// The names of an entry, a fixpoint's own not among the free ones.
fn names_at(number: usize, entry: &Entry, below: &[Names]) -> Names {
    let mut names = names_of(entry, below);
    if entry.kind.is_fixpoint() {
        names.free.remove(number);
    }
    names
}

/// The names of the operands together, before a fixpoint takes its own away.
fn names_of(entry: &Entry, below: &[Names]) -> Names {
    let (a, b) = (usize::from(entry.a), usize::from(entry.b));
    match entry.kind {
        Kind::False | Kind::True | Kind::Letter | Kind::Negated => Names::default(),
        Kind::Name => Names {
            free: Bits::one(a),
            bare: Bits::one(a),
        },
        Kind::Or | Kind::And => Names {
            free: below[a].free.union(below[b].free),
            bare: below[a].bare.union(below[b].bare),
        },
        Kind::Diamond | Kind::Box => Names {
            free: below[a].free,
            bare: Bits::default(),
        },
        Kind::Mu | Kind::Nu => below[a],
    }
}

/// The free names of each entry of a table that passed.
pub fn free_names(entries: &[Entry]) -> Vec<Bits> {
    let mut below: Vec<Names> = Vec::with_capacity(entries.len());
    for (number, entry) in entries.iter().enumerate() {
        below.push(names_at(number, entry, &below));
    }
    below.into_iter().map(|names| names.free).collect()
}
