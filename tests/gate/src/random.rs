//! Random claims and models for evaluation: well formed by construction, or
//! damaged on purpose. The reference has a generator that grows formulas from
//! above; this one lays tables down from below, so that operands are shared at
//! random, names stay free over many fixpoints, and blocks tangle. Claim and model
//! go by the same actions as a rule; half of the claims have the form of several
//! goals, and some of these no goals, or no entries either.

use reference::draft::{self, DraftState, File, Mark};
use reference::generate::Rng;
use reference::{Entry, Kind, ACTIONS};
use std::collections::BTreeSet;

pub struct Pair {
    pub claim: Vec<u8>,
    pub model: Vec<u8>,
    /// One of the two was changed; it may be well formed all the same.
    pub damaged: bool,
}

/// An endless run of pairs, one in four damaged.
pub fn pairs(seed: u64) -> impl Iterator<Item = Pair> {
    let mut rng = Rng::new(seed);
    std::iter::repeat_with(move || pair(&mut rng))
}

fn pair(rng: &mut Rng) -> Pair {
    let actions = actions(rng);
    let entries = match rng.below(24) {
        0 => Vec::new(),
        _ => entries(rng, &actions),
    };
    let goals = goals(rng, &entries);
    let states = states(rng, &actions);
    let claim = laid_down(&entries, &goals, |_| false);
    let form = form(rng);
    let model = form(&states);
    let damaged = rng.chance(1, 4);
    let (claim, model) = match (damaged, rng.below(4)) {
        (false, _) => (claim, model.bytes),
        (true, 0) => (damage(rng, claim), model.bytes),
        (true, 1) => (ill_formed(rng, entries, goals), model.bytes),
        (true, 2) => (claim, damage(rng, model.bytes)),
        (true, _) => (claim, unfit(rng, states, form)),
    };
    Pair {
        claim,
        model,
        damaged,
    }
}

/// 0 alone, a few or all.
fn actions(rng: &mut Rng) -> Vec<u16> {
    match rng.below(8) {
        0..=1 => vec![0],
        2 => (0..ACTIONS as u16).collect(),
        _ => (0..rng.between(1, 4))
            .map(|_| rng.below(ACTIONS) as u16)
            .collect(),
    }
}

/// The form with actions, or seldom the one with action 0 alone.
fn form(rng: &mut Rng) -> fn(&[DraftState]) -> File {
    match rng.below(6) {
        0 => draft::model,
        _ => draft::action_model,
    }
}

/// What is known of an entry laid down.
#[derive(Clone, Default)]
struct Names {
    free: BTreeSet<usize>,
    /// Those of them that are reached without a box or diamond.
    bare: BTreeSet<usize>,
}

/// A table in the making. Where fixpoints will stand, and of which kind, is
/// settled first: names below them need their numbers.
struct Table<'a> {
    actions: &'a [u16],
    fixpoints: Vec<Option<Kind>>,
    entries: Vec<Entry>,
    names: Vec<Names>,
}

/// A well-formed table that goes by these actions.
fn entries(rng: &mut Rng, actions: &[u16]) -> Vec<Entry> {
    let size = match rng.below(16) {
        0 => 256,
        1 => rng.between(100, 255),
        2..=5 => rng.between(30, 100),
        _ => rng.between(1, 30),
    };
    let mut table = Table {
        actions,
        fixpoints: fixpoints(rng, size),
        entries: Vec::with_capacity(size),
        names: Vec::with_capacity(size),
    };
    while table.entries.len() < size {
        table.lay(rng);
    }
    table.entries
}

/// Few or many fixpoints, in runs of one kind: only those nest without closing
/// each other's names off. Entry 0 has no operands to be one.
fn fixpoints(rng: &mut Rng, size: usize) -> Vec<Option<Kind>> {
    let share = rng.between(2, 8);
    let mut kind = Kind::Mu;
    let mut fixpoints = vec![None; size];
    for fixpoint in fixpoints.iter_mut().skip(1) {
        if rng.chance(1, share) {
            if rng.chance(1, 4) {
                kind = other(kind);
            }
            *fixpoint = Some(kind);
        }
    }
    fixpoints
}

fn other(kind: Kind) -> Kind {
    match kind {
        Kind::Mu => Kind::Nu,
        _ => Kind::Mu,
    }
}

impl Table<'_> {
    fn lay(&mut self, rng: &mut Rng) {
        let number = self.entries.len();
        let entry = match (self.fixpoints[number], rng.below(10)) {
            (Some(kind), _) => Entry::new(kind, self.body(rng, kind), 0),
            // Nothing lies below entry 0, and it is what others fall back on.
            _ if number == 0 => leaf(rng),
            (None, 0) => leaf(rng),
            (None, 1..=3) => self.name(rng),
            (None, 4..=5) => self.joined(rng, Kind::Or),
            (None, 6) => self.joined(rng, Kind::And),
            (None, 7..=8) => self.modal(rng, Kind::Diamond),
            (None, _) => self.modal(rng, Kind::Box),
        };
        self.push(entry);
    }

    /// Mostly of one of the next fixpoints above.
    fn name(&self, rng: &mut Rng) -> Entry {
        let number = self.entries.len();
        let above: Vec<usize> = (number + 1..self.fixpoints.len())
            .filter(|&f| self.fixpoints[f].is_some())
            .collect();
        let reach = if rng.chance(1, 4) { above.len() } else { 4 };
        match above.get(rng.below(reach.min(above.len()))) {
            Some(&fixpoint) => Entry::new(Kind::Name, fixpoint as u16, 0),
            None => leaf(rng),
        }
    }

    fn joined(&self, rng: &mut Rng, kind: Kind) -> Entry {
        Entry::new(kind, self.operand(rng), self.operand(rng))
    }

    fn modal(&self, rng: &mut Rng, kind: Kind) -> Entry {
        let action = rng.pick(self.actions).unwrap_or(0);
        Entry::new(kind, self.operand(rng), action)
    }

    /// An entry whose free names all lie above the one being laid down, of several
    /// mostly one with many of them, so that fixpoints come to depend on each
    /// other. Entry 0 is closed.
    fn operand(&self, rng: &mut Rng) -> u16 {
        let number = self.entries.len();
        let fits = |found: &usize| self.names[*found].free.iter().all(|&name| name > number);
        let several = rng.between(1, 3);
        let found: Vec<usize> = (0..6)
            .map(|_| self.late(rng))
            .filter(fits)
            .take(several)
            .collect();
        let most = |found: &&usize| self.names[**found].free.len();
        found.iter().max_by_key(most).copied().unwrap_or_default() as u16
    }

    /// An entry laid down, a late one more often, so that formulas grow deep.
    fn late(&self, rng: &mut Rng) -> usize {
        let number = self.entries.len();
        let reach = if rng.chance(2, 3) { 6 } else { number };
        number - 1 - rng.below(reach.min(number))
    }

    /// A body for the fixpoint being laid down, mostly one with its own name.
    fn body(&self, rng: &mut Rng, kind: Kind) -> u16 {
        let number = self.entries.len();
        let fits = |&body: &usize| {
            let Names { free, bare } = &self.names[body];
            let open = |&name: &usize| name > number && self.fixpoints[name] == Some(kind);
            free.iter().all(|name| *name == number || open(name)) && !bare.contains(&number)
        };
        let bodies: Vec<usize> = (0..number).filter(fits).collect();
        let own: Vec<usize> = bodies
            .iter()
            .copied()
            .filter(|&body| self.names[body].free.contains(&number))
            .collect();
        let chosen = match own.len() {
            0 => bodies,
            _ if rng.chance(1, 10) => bodies,
            _ => own,
        };
        // The highest has most below it.
        let body = match rng.chance(1, 2) {
            true => chosen.last().copied(),
            false => rng.pick(&chosen),
        };
        body.unwrap_or_default() as u16
    }

    fn push(&mut self, entry: Entry) {
        let number = self.entries.len();
        let mut names = Names::default();
        let operands = match entry.kind {
            Kind::False | Kind::True | Kind::Letter | Kind::Negated => vec![],
            Kind::Name => {
                names.free.insert(entry.a.into());
                names.bare.insert(entry.a.into());
                vec![]
            }
            Kind::Or | Kind::And => vec![entry.a, entry.b],
            _ => vec![entry.a],
        };
        for operand in operands {
            let below = &self.names[usize::from(operand)];
            names.free.extend(&below.free);
            names.bare.extend(&below.bare);
        }
        match entry.kind {
            Kind::Diamond | Kind::Box => names.bare.clear(),
            Kind::Mu | Kind::Nu => {
                names.free.remove(&number);
            }
            _ => {}
        }
        self.entries.push(entry);
        self.names.push(names);
    }
}

fn leaf(rng: &mut Rng) -> Entry {
    let letters = if rng.chance(1, 8) { 32 } else { 4 };
    let letter = rng.below(letters) as u16;
    match rng.below(8) {
        0 => Entry::new(Kind::False, 0, 0),
        1 => Entry::new(Kind::True, 0, 0),
        2..=4 => Entry::new(Kind::Letter, letter, 0),
        _ => Entry::new(Kind::Negated, letter, 0),
    }
}

/// The members of one goal, in the form that has no more, or of several; of one in
/// either.
enum Goals {
    One(Vec<u16>),
    Several(Vec<Vec<u16>>),
}

/// Without entries there are no members either.
fn goals(rng: &mut Rng, entries: &[Entry]) -> Goals {
    let count = match rng.below(16) {
        _ if entries.is_empty() => 0,
        0 => 0,
        1..=2 => 16,
        3..=4 => rng.between(1, 15),
        5..=7 => rng.between(1, 3),
        _ => return Goals::One(members(rng, entries)),
    };
    Goals::Several((0..count).map(|_| members(rng, entries)).collect())
}

fn laid_down(entries: &[Entry], goals: &Goals, written_out: impl Fn(usize) -> bool) -> Vec<u8> {
    let file = match goals {
        Goals::One(members) => draft::claim_written_out(entries, members, written_out),
        Goals::Several(goals) => draft::goal_claim_written_out(entries, goals, written_out),
    };
    file.bytes
}

/// Some entries that are no names; entry 0 never is.
fn members(rng: &mut Rng, entries: &[Entry]) -> Vec<u16> {
    let mut members: Vec<u16> = (0..entries.len() as u16)
        .filter(|&number| entries[usize::from(number)].kind != Kind::Name)
        .collect();
    rng.shuffle(&mut members);
    members.truncate(rng.between(1, 24));
    members.sort_unstable();
    members
}

/// States with a graph of its own for each action, now and then for one more.
fn states(rng: &mut Rng, actions: &[u16]) -> Vec<DraftState> {
    let count = match rng.below(8) {
        0 => 1,
        1 => 64,
        2 => 63,
        3 => rng.between(10, 62),
        _ => rng.between(2, 12),
    };
    let mut shapes = [None; ACTIONS];
    for &action in actions {
        shapes[usize::from(action)] = Some(rng.below(9));
    }
    if rng.chance(1, 3) {
        shapes[rng.below(ACTIONS)] = Some(rng.below(9));
    }
    let letters = if rng.chance(1, 4) { u32::MAX } else { 15 };
    let rare = rng.chance(1, 3);
    (0..count)
        .map(|state| DraftState {
            letters: match rare && state > 0 {
                true => 1 << rng.below(8) & letters,
                false => rng.word() as u32 & letters,
            },
            successors: shapes.map(|shape| match shape {
                Some(shape) => (0..count)
                    .filter(|&next| leads(rng, shape, state, next, count))
                    .map(|next| next as u8)
                    .collect(),
                None => Vec::new(),
            }),
        })
        .collect()
}

/// Whether `next` follows `state` in a graph of that shape.
fn leads(rng: &mut Rng, shape: usize, state: usize, next: usize, count: usize) -> bool {
    match shape {
        0 => false,
        1 => true,
        2 => next == (state + 1) % count,
        3 => next + 1 == state,
        4 => next == state + 1 || state + 1 == count && next == count / 2,
        5 => rng.chance(1, 2),
        6 => rng.chance(2, count),
        7 => next < state && rng.chance(1, 3),
        // Pairs and self-loops apart from each other.
        _ => state / 2 == next / 2 && rng.chance(2, 3),
    }
}

/// Blind damage to a file's bytes.
fn damage(rng: &mut Rng, mut bytes: Vec<u8>) -> Vec<u8> {
    let at = rng.below(bytes.len());
    match rng.below(8) {
        0 => bytes[at] ^= 1 << rng.below(8),
        1 => bytes[at] = rng.word() as u8,
        2 => bytes[at] = bytes[at].wrapping_add(1),
        3 => bytes[at] = 0,
        4 => bytes.truncate(at),
        5 => bytes.insert(at, rng.word() as u8),
        6 => drop(bytes.remove(at)),
        _ => bytes.extend((0..rng.between(1, 3)).map(|_| rng.word() as u8)),
    }
    bytes
}

/// A table with one entry changed: 14, 20 to 23, 71, or still well formed; or with
/// zeros written out; or with goals changed: 12, 14 or 72.
fn ill_formed(rng: &mut Rng, mut entries: Vec<Entry>, goals: Goals) -> Vec<u8> {
    let count = entries.len();
    let any = rng.below(count + 1) as u16;
    let at = rng.below(count);
    if entries.is_empty() {
        let goals = Goals::Several(other_goals(rng, vec![vec![any]], any));
        return laid_down(&entries, &goals, |_| false);
    }
    if rng.chance(1, 6) {
        let written_out = |number: usize| entries[number].b == 0 && number >= at;
        return laid_down(&entries, &goals, written_out);
    }
    if let (Goals::Several(goals), true) = (&goals, rng.chance(1, 3)) {
        let goals = Goals::Several(other_goals(rng, goals.clone(), any));
        return laid_down(&entries, &goals, |_| false);
    }
    let entry = &mut entries[at];
    match rng.below(6) {
        0 => entry.a = any,
        1 => entry.b = any,
        2 => entry.a = rng.word() as u16,
        // A name of this or another fixpoint, or of none.
        3 => *entry = Entry::new(Kind::Name, any, 0),
        4 => *entry = Entry::new(Kind::Box, any, rng.between(14, 18) as u16),
        _ => {
            entry.kind = match entry.kind {
                Kind::Mu => Kind::Nu,
                Kind::Nu => Kind::Mu,
                Kind::Diamond | Kind::Box => Kind::Mu,
                Kind::Or => Kind::And,
                _ => Kind::Letter,
            }
        }
    }
    laid_down(&entries, &goals, |_| false)
}

/// None or too many goals, or one of them with no members, with too many, or with one
/// that may not follow the others. Where there were none it is one of any member.
fn other_goals(rng: &mut Rng, mut goals: Vec<Vec<u16>>, any: u16) -> Vec<Vec<u16>> {
    if goals.is_empty() {
        goals.push(vec![any]);
    }
    let at = rng.below(goals.len());
    match rng.below(5) {
        0 => goals.clear(),
        1 => goals.resize(rng.between(16, 18), vec![0]),
        2 => goals[at].clear(),
        3 => goals[at] = (0..25).collect(),
        _ => goals[at].push(any),
    }
    goals
}

/// A model with one state unlike any that a file may have: 61 to 64.
fn unfit(rng: &mut Rng, mut states: Vec<DraftState>, form: fn(&[DraftState]) -> File) -> Vec<u8> {
    let count = states.len();
    let at = rng.below(count);
    let lists = &mut states[at].successors;
    let there: Vec<usize> = (0..ACTIONS).filter(|&n| !lists[n].is_empty()).collect();
    let list = &mut lists[rng.pick(&there).unwrap_or(0)];
    match rng.below(8) {
        0 => list.push(count as u8),
        1 => list.insert(0, rng.below(count) as u8),
        2 => list.resize(65, 0),
        3 => states.resize(rng.between(65, 67), DraftState::default()),
        4 => states.clear(),
        _ => return with_zero(rng, form(&states)),
    }
    form(&states).bytes
}

/// An empty map of actions, a zero count of any list, a zero mask, or no states.
fn with_zero(rng: &mut Rng, mut file: File) -> Vec<u8> {
    let may_not = |mark: &Mark| matches!(mark, Mark::Actions | Mark::Count | Mark::Field);
    let fields: Vec<(usize, usize)> = file
        .marks
        .iter()
        .filter(|(mark, ..)| may_not(mark))
        .map(|&(_, at, width)| (at, width))
        .collect();
    if let Some((at, width)) = rng.pick(&fields) {
        file.bytes[at..at + width].fill(0);
    }
    file.bytes
}
