//! The evaluator against slow meanings taken straight from the definition.

use reference::draft::{self, DraftState};
use reference::{evaluate, generate, Claim, Entry, Kind, Model};

/// How a fixpoint is found, given its body's meaning as a function of the set
/// for its own name.
type Fixpoint = fn(Kind, u64, &dyn Fn(u64) -> u64) -> u64;

/// "iterated from no state (mu) or all states (nu)"
fn by_rounds(kind: Kind, all: u64, body: &dyn Fn(u64) -> u64) -> u64 {
    let mut set = if kind == Kind::Mu { 0 } else { all };
    loop {
        match body(set) {
            next if next == set => return set,
            next => set = next,
        }
    }
}

/// "A mu is the least set of states that, set for its own name, is also its
/// body's meaning, a nu the greatest": by trying all sets.
fn by_trial(kind: Kind, all: u64, body: &dyn Fn(u64) -> u64) -> u64 {
    let solutions: Vec<u64> = (0..=all).filter(|&set| body(set) == set).collect();
    let inside = |small: u64, large: u64| small & !large == 0;
    let extreme = |&set: &u64| {
        solutions.iter().all(|&other| match kind {
            Kind::Mu => inside(set, other),
            _ => inside(other, set),
        })
    };
    let found = solutions.iter().copied().find(extreme);
    found.expect("a monotone body has a least and a greatest solution")
}

struct Slow<'a> {
    entries: &'a [Entry],
    model: &'a Model,
    fixpoint: Fixpoint,
}

impl Slow<'_> {
    /// The meaning with `set` giving the sets of the free names.
    fn meaning(&self, number: usize, set: &[u64]) -> u64 {
        let Entry { kind, a, b } = self.entries[number];
        let of = |operand: u16| self.meaning(operand.into(), set);
        let states = 0..self.model.states();
        let row = |state: usize| self.model.successors(b, state);
        let all = self.model.all();
        match kind {
            Kind::False => 0,
            Kind::True => all,
            Kind::Letter => self.model.valuation[usize::from(a)],
            Kind::Negated => all ^ self.model.valuation[usize::from(a)],
            Kind::Or => of(a) | of(b),
            Kind::And => of(a) & of(b),
            Kind::Diamond => word(states, |state| row(state) & of(a) != 0),
            Kind::Box => word(states, |state| row(state) & !of(a) == 0),
            Kind::Mu | Kind::Nu => self.solve(number, set),
            Kind::Name => set[usize::from(a)],
        }
    }

    fn solve(&self, number: usize, set: &[u64]) -> u64 {
        let Entry { kind, a, .. } = self.entries[number];
        (self.fixpoint)(kind, self.model.all(), &|own| {
            let mut set = set.to_vec();
            set[number] = own;
            self.meaning(a.into(), &set)
        })
    }

    /// "An entry by itself has each free name set to that fixpoint's own
    /// meaning, found from the highest number down."
    fn words(&self) -> Vec<u64> {
        let mut set = vec![0; self.entries.len()];
        for number in (0..self.entries.len()).rev() {
            if matches!(self.entries[number].kind, Kind::Mu | Kind::Nu) {
                set[number] = self.solve(number, &set);
            }
        }
        (0..self.entries.len())
            .map(|number| self.meaning(number, &set))
            .collect()
    }
}

fn word(states: std::ops::Range<usize>, holds: impl Fn(usize) -> bool) -> u64 {
    states.fold(0, |word, state| word | u64::from(holds(state)) << state)
}

/// Whether some box or diamond goes by an action other than 0 that the model has,
/// and another one by another.
fn has_several_actions(entries: &[Entry], model: &Model) -> bool {
    let modal = |e: &&Entry| matches!(e.kind, Kind::Box | Kind::Diamond);
    let there = |action: u16| (0..model.states()).any(|s| model.successors(action, s) != 0);
    let actions: Vec<u16> = entries.iter().filter(modal).map(|e| e.b).collect();
    let found = actions.iter().find(|&&action| action != 0 && there(action));
    found.is_some_and(|one| actions.iter().any(|other| other != one))
}

/// Compares both on many small inputs; answers how many had fixpoints in
/// fixpoints, and how many went by several actions.
fn compare(seed: u64, states: usize, count: usize, fixpoint: Fixpoint) -> (usize, usize) {
    let (mut several, mut by_actions) = (0, 0);
    for (claim, model) in generate::small_evals(seed, states).take(count) {
        let entries = Claim::read(&claim).expect("well formed").entries;
        let slow = Slow {
            entries: &entries,
            model: &Model::read(&model).expect("well formed"),
            fixpoint,
        };
        by_actions += usize::from(has_several_actions(&entries, slow.model));
        let words = evaluate(&claim, &model).expect("well formed");
        assert_eq!(words, slow.words(), "{entries:?} in {model:?}");
        let fixpoints = |e: &&Entry| matches!(e.kind, Kind::Mu | Kind::Nu);
        several += usize::from(entries.iter().filter(fixpoints).count() >= 2);
    }
    (several, by_actions)
}

#[test]
fn agrees_with_rounds_from_the_definition() {
    let (several, by_actions) = compare(21, 6, 6000, by_rounds);
    assert!(several > 1000, "only {several} with several fixpoints");
    assert!(by_actions > 600, "only {by_actions} with several actions");
}

#[test]
fn agrees_with_least_and_greatest_sets() {
    let (several, by_actions) = compare(22, 3, 3000, by_trial);
    assert!(several > 500, "only {several} with several fixpoints");
    assert!(by_actions > 200, "only {by_actions} with several actions");
}

/// Words of whole generated inputs solve every entry's equation, and no bit
/// past the last state is set.
#[test]
fn words_solve_their_equations() {
    for record in generate::evals(23).filter(|r| r.answer == 0).take(4000) {
        let entries = Claim::read(&record.claim).expect("well formed").entries;
        let model = Model::read(&record.model).expect("well formed");
        assert_eq!(record.words.len(), entries.len());
        for (entry, &word) in entries.iter().zip(&record.words) {
            assert_eq!(word & !model.all(), 0);
            if matches!(entry.kind, Kind::Mu | Kind::Nu | Kind::Name) {
                assert_eq!(word, record.words[usize::from(entry.a)]);
            }
        }
    }
}

/// Each action alone: a box and a diamond by each of the sixteen, in models whose
/// states have successors by one of them.
#[test]
fn each_action_by_itself() {
    let mut entries = vec![Entry::new(Kind::False, 0, 0), Entry::new(Kind::True, 0, 0)];
    for action in 0..16 {
        entries.push(Entry::new(Kind::Box, 0, action));
        entries.push(Entry::new(Kind::Diamond, 1, action));
    }
    let claim = draft::claim(&entries, &[0]).bytes;
    for present in 0..16 {
        let mut states = vec![DraftState::default(); 3];
        states[1].successors[present] = vec![0, 2];
        let words = evaluate(&claim, &draft::action_model(&states).bytes).expect("well formed");
        for (action, words) in words[2..].chunks(2).enumerate() {
            // State 1 alone has successors, if any has.
            let expected = if action == present { [5, 2] } else { [7, 0] };
            assert_eq!(words, expected, "action {action}, model by {present}");
        }
        let old = evaluate(&claim, &draft::model(&states).bytes).expect("well formed");
        let expected = if present == 0 { [5, 2] } else { [7, 0] };
        assert_eq!(old[2..4], expected);
        assert!(old[4..].chunks(2).all(|words| words == [7, 0]));
    }
}
