//! Which entries are the same formula, against the formulas themselves: each
//! written out, names as the number of fixpoints up to their own.

use reference::generate::extremes::{crowd, funnel, nest, side_by_side, tower};
use reference::generate::{self, Rng};
use reference::Kind::{And, Box, Diamond, Letter, Mu, Name, Negated, Nu, Or, True};
use reference::{draft, evaluate, least_alike, Claim, Entry, Kind};
use std::time::{Duration, Instant};

/// No formula of more parts is written out.
const PARTS: usize = 3_000;

/// Writes an entry out below the fixpoints passed on the way, kind by kind with
/// operands behind: "each free name is replaced by its fixpoint, written out".
fn write(entries: &[Entry], at: u16, passed: &mut Vec<u16>, text: &mut Vec<u16>) {
    let Entry { kind, a, b } = entries[usize::from(at)];
    if text.len() > PARTS {
        return;
    }
    if kind == Name && !passed.contains(&a) {
        return write(entries, a, &mut Vec::new(), text);
    }
    text.push(kind as u16);
    match kind {
        Kind::False | True => {}
        Letter | Negated => text.push(a),
        Name => {
            let between = passed.iter().rev().take_while(|&&other| other != a).count();
            text.push(between as u16);
        }
        Or | And => {
            write(entries, a, passed, text);
            write(entries, b, passed, text);
        }
        Diamond | Box => {
            text.push(b);
            write(entries, a, passed, text);
        }
        Mu | Nu => {
            passed.push(at);
            write(entries, a, passed, text);
            passed.pop();
        }
    }
}

/// Each entry's formula, if all are short enough.
fn formulas(entries: &[Entry]) -> Option<Vec<Vec<u16>>> {
    let mut formulas = Vec::new();
    for at in 0..entries.len() as u16 {
        let mut text = Vec::new();
        write(entries, at, &mut Vec::new(), &mut text);
        if text.len() > PARTS {
            return None;
        }
        formulas.push(text);
    }
    Some(formulas)
}

/// What was compared.
#[derive(Debug, Default)]
struct Seen {
    tables: usize,
    too_large: usize,
    /// Pairs of entries, neither a name, of one formula; those in which a name
    /// is free in just one of the two; those that are fixpoints.
    pairs: usize,
    half_open: usize,
    fixpoints: usize,
}

impl Seen {
    fn compare(&mut self, entries: &[Entry]) {
        let Some(formulas) = formulas(entries) else {
            self.too_large += 1;
            return;
        };
        self.tables += 1;
        let no_name = |at: &usize| entries[*at].kind != Name;
        let numbers = || (0..entries.len()).filter(no_name);
        let least: Vec<u16> = formulas
            .iter()
            .map(|formula| numbers().find(|&at| formulas[at] == *formula))
            .map(|least| least.expect("a name's fixpoint is one") as u16)
            .collect();
        assert_eq!(least_alike(entries), least, "{entries:?}");
        for at in numbers() {
            for below in numbers().filter(|&below| below < at && formulas[below] == formulas[at]) {
                self.pairs += 1;
                self.half_open += usize::from(is_open(entries, below) != is_open(entries, at));
                self.fixpoints += usize::from(matches!(entries[at].kind, Mu | Nu));
            }
        }
    }
}

/// Whether a name of a fixpoint above is reached.
fn is_open(entries: &[Entry], at: usize) -> bool {
    fn reaches(entries: &[Entry], at: usize, above: usize) -> bool {
        let Entry { kind, a, b } = entries[at];
        match kind {
            Kind::False | True | Letter | Negated => false,
            Name => usize::from(a) > above,
            Or | And => reaches(entries, a.into(), above) || reaches(entries, b.into(), above),
            Diamond | Box | Mu | Nu => reaches(entries, a.into(), above),
        }
    }
    reaches(entries, at, at)
}

#[test]
fn tables_with_twins() {
    let mut seen = Seen::default();
    for entries in generate::small_twins(1).take(20_000) {
        assert!(is_well_formed(&entries), "{entries:?}");
        seen.compare(&entries);
    }
    println!("with twins: {seen:?}");
    assert!(seen.tables > 18_000 && seen.half_open > 5_000 && seen.fixpoints > 5_000);
}

#[test]
fn claims_of_every_size() {
    let mut seen = Seen::default();
    let small = generate::small_evals(2, 1).map(|(claim, _)| claim);
    let proved = generate::accepted(3).map(|(claim, _)| claim);
    let twins = generate::twins(4).map(|record| record.claim);
    for claim in small
        .take(5_000)
        .chain(proved.take(3_000))
        .chain(twins.take(3_000))
    {
        seen.compare(&Claim::read(&claim).expect("well formed").entries);
    }
    println!("claims: {seen:?}");
    assert!(seen.tables > 9_000);
}

fn is_well_formed(entries: &[Entry]) -> bool {
    let member = entries.iter().position(|entry| entry.kind != Name);
    let claim = draft::claim(entries, &[member.unwrap_or(0) as u16]).bytes;
    let no_model = evaluate(&claim, b"").expect_err("no model");
    no_model.number == 60
}

/// Entries drawn one by one, those tables kept that are well formed.
fn any_table(rng: &mut Rng) -> Vec<Entry> {
    const KINDS: [Kind; 12] = [Letter, Or, Or, And, Box, Box, Diamond, Nu, Nu, Nu, Mu, True];
    let names = rng.between(1, 4);
    let count = rng.between(names + 2, 14);
    let mut kinds = vec![Name; names];
    kinds.extend((names..count).map(|_| rng.pick(&KINDS).unwrap_or(Box)));
    let fixpoints: Vec<u16> = (0..count)
        .filter(|&at| matches!(kinds[at], Mu | Nu))
        .map(|at| at as u16)
        .collect();
    let mut entry = |(at, &kind): (usize, &Kind)| match kind {
        Kind::False | True => Entry::new(kind, 0, 0),
        Letter | Negated => Entry::new(kind, rng.below(2) as u16, 0),
        Or | And => Entry::new(kind, rng.below(at) as u16, rng.below(at) as u16),
        Name => Entry::new(kind, rng.pick(&fixpoints).unwrap_or(0), 0),
        Diamond | Box => Entry::new(kind, rng.below(at) as u16, rng.below(2) as u16),
        Mu | Nu => Entry::new(kind, rng.below(at) as u16, 0),
    };
    kinds.iter().enumerate().map(&mut entry).collect()
}

#[test]
fn tables_drawn_at_random() {
    let mut rng = Rng::new(5);
    let mut seen = Seen::default();
    while seen.tables < 10_000 {
        let entries = any_table(&mut rng);
        if is_well_formed(&entries) {
            seen.compare(&entries);
        }
    }
    println!("drawn at random: {seen:?}");
}

/// A formula but for its names.
enum Skeleton {
    Name,
    Step(u16, std::boxed::Box<Skeleton>),
    Join(std::boxed::Box<[Skeleton; 2]>),
    Fixpoint(std::boxed::Box<Skeleton>),
}

fn skeleton(rng: &mut Rng, depth: usize) -> Skeleton {
    if depth == 0 {
        return Skeleton::Name;
    }
    match rng.below(8) {
        0 => Skeleton::Name,
        1 => Skeleton::Step(rng.below(16) as u16, skeleton(rng, depth - 1).into()),
        2..=4 => Skeleton::Join([(); 2].map(|()| skeleton(rng, depth - 1)).into()),
        _ => Skeleton::Fixpoint(skeleton(rng, depth - 1).into()),
    }
}

/// Lays a skeleton down with any names of the fixpoints around, which are known
/// by how many there are; the names are entered once their fixpoint is.
fn lay_down(rng: &mut Rng, skeleton: &Skeleton, around: u16, entries: &mut Vec<Entry>) -> u16 {
    let entry = match skeleton {
        Skeleton::Name if around == 0 => e(Letter, 0, 0),
        Skeleton::Name => {
            entries.push(e(Name, 1000 + rng.below(around.into()) as u16, 0));
            e(Box, entries.len() as u16 - 1, 0)
        }
        Skeleton::Step(action, below) => e(Diamond, lay_down(rng, below, around, entries), *action),
        Skeleton::Join(below) => {
            let [a, b] = below
                .each_ref()
                .map(|below| lay_down(rng, below, around, entries));
            e(Or, a, b)
        }
        Skeleton::Fixpoint(below) => {
            let start = entries.len();
            let body = lay_down(rng, below, around + 1, entries);
            let own = entries.len() as u16;
            let names = entries[start..].iter_mut().filter(|name| name.kind == Name);
            names
                .filter(|name| name.a == 1000 + around)
                .for_each(|name| name.a = own);
            e(Nu, body, 0)
        }
    };
    entries.push(entry);
    entries.len() as u16 - 1
}

/// One formula several times, with other names each time: which of them are the
/// same is told by the names alone.
#[test]
fn formulas_that_differ_in_names() {
    let mut rng = Rng::new(9);
    let mut seen = Seen::default();
    while seen.tables < 10_000 {
        let inside = skeleton(&mut rng, 4);
        let skeleton = Skeleton::Fixpoint(Skeleton::Fixpoint(inside.into()).into());
        let mut entries = Vec::new();
        for _ in 0..5 {
            lay_down(&mut rng, &skeleton, 0, &mut entries);
        }
        if entries.len() <= 256 {
            assert!(is_well_formed(&entries), "{entries:?}");
            seen.compare(&entries);
        }
    }
    println!("that differ in names: {seen:?}");
    assert!(seen.fixpoints > 10_000);
}

/// The least alike of each entry, the formulas written out beside.
fn least(entries: &[Entry]) -> Vec<u16> {
    assert!(is_well_formed(entries));
    Seen::default().compare(entries);
    least_alike(entries)
}

fn e(kind: Kind, a: u16, b: u16) -> Entry {
    Entry::new(kind, a, b)
}

/// nu x nu y (box x or box y), and the same with box y or box x.
#[test]
fn which_fixpoint_a_name_is_of_counts() {
    let one = [e(Name, 6, 0), e(Name, 5, 0), e(Box, 0, 0), e(Box, 1, 0)];
    let both = [e(Or, 2, 3), e(Nu, 4, 0), e(Nu, 5, 0)];
    let other = [e(Name, 13, 0), e(Name, 12, 0), e(Box, 7, 0), e(Box, 8, 0)];
    let exchanged = [e(Or, 10, 9), e(Nu, 11, 0), e(Nu, 12, 0)];
    let entries = [&one[..], &both, &other, &exchanged].concat();
    assert_eq!(least(&entries)[13], 13);
    let mut same = entries.clone();
    same[11] = e(Or, 9, 10);
    let least = least(&same);
    assert_eq!((least[12], least[13]), (5, 6));
}

/// Boxes of a letter by all actions, and again; box by 1 is not diamond by 1.
#[test]
fn the_action_counts() {
    let mut entries = vec![e(Letter, 0, 0)];
    entries.extend((0..32).map(|at| e(Box, 0, at % 16)));
    entries.extend((0..16).map(|action| e(Diamond, 0, action)));
    let boxes = (1..17).chain(1..17);
    let all: Vec<u16> = [0].into_iter().chain(boxes).chain(33..49).collect();
    assert_eq!(least(&entries), all);
}

/// nu x box x with one action inside and another, each twice, and box of each by
/// the other's action.
#[test]
fn an_action_inside_counts() {
    let nu = |at: u16, action: u16| [e(Name, at + 2, 0), e(Box, at, action), e(Nu, at + 1, 0)];
    let entries = [nu(0, 1), nu(3, 2), nu(6, 1), nu(9, 2)].concat();
    let boxes = [e(Box, 2, 2), e(Box, 8, 1), e(Box, 11, 1), e(Box, 5, 2)];
    let least = least(&[&entries[..], &boxes].concat());
    assert_eq!(least[..12], [2, 1, 2, 5, 4, 5, 2, 1, 2, 5, 4, 5]);
    assert_eq!(least[12..], [12, 1, 14, 4]);
}

/// nu x p, nu y p, nu x nu y box x, nu x nu y box y.
#[test]
fn fixpoints_without_their_own_name() {
    let entries = [e(Letter, 0, 0), e(Nu, 0, 0), e(Letter, 0, 0), e(Nu, 2, 0)];
    assert_eq!(least(&entries), [0, 1, 0, 1]);
    let outer = [e(Name, 3, 0), e(Box, 0, 0), e(Nu, 1, 0), e(Nu, 2, 0)];
    let inner = [e(Name, 6, 0), e(Box, 4, 0), e(Nu, 5, 0), e(Nu, 6, 0)];
    let least = least(&[outer, inner].concat());
    assert_eq!((least[6], least[7]), (6, 7));
}

/// nu x box x; its body by itself, and the same over the fixpoint as operand.
#[test]
fn a_name_and_its_fixpoint_written_out() {
    let entries = [e(Name, 2, 0), e(Box, 0, 0), e(Nu, 1, 0), e(Box, 2, 0)];
    assert_eq!(least(&entries), [2, 1, 2, 1]);
}

/// nu x box x, box nu x box x and nu y box nu x box x are three formulas.
#[test]
fn a_fixpoint_is_not_its_unfolding() {
    let mut entries = vec![e(Name, 2, 0), e(Box, 0, 0), e(Nu, 1, 0)];
    entries.extend([e(Box, 2, 0), e(Nu, 3, 0)]);
    assert_eq!(least(&entries), [2, 1, 2, 1, 4]);
}

/// nu x (box x and box nu y G), and nu y G with G = box (nu x (box x and box y))
/// and box y: their unfoldings are the same without end, they are not.
#[test]
fn the_same_without_end_is_not_the_same() {
    let inner = [e(Name, 8, 0), e(Name, 5, 0), e(Box, 0, 0), e(Box, 1, 0)];
    let g = [
        e(And, 3, 2),
        e(Nu, 4, 0),
        e(Box, 5, 0),
        e(And, 6, 2),
        e(Nu, 7, 0),
    ];
    let outer = [
        e(Name, 13, 0),
        e(Box, 9, 0),
        e(Box, 8, 0),
        e(And, 10, 11),
        e(Nu, 12, 0),
    ];
    let entries = [&inner[..], &g, &outer].concat();
    let least = least(&entries);
    assert_eq!(least[5], 5);
    assert_eq!(least[13], 5, "entry 5 by itself has y written out");
    assert_eq!(least[8], 8);
}

/// The first entry of a formula is a name.
#[test]
fn a_name_is_never_the_answer() {
    let names = [e(Name, 4, 0), e(Name, 4, 0), e(Or, 0, 1)];
    let entries = [&names[..], &[e(Box, 2, 0), e(Nu, 3, 0), e(Or, 1, 0)]].concat();
    let entries = [&entries[..5], &[e(Or, 4, 4)]].concat();
    assert_eq!(least(&entries), [4, 4, 2, 3, 4, 2]);
}

/// An entry with names of two fixpoints, once more under the inner one alone, and
/// with both written out.
#[test]
fn entries_between_two_names() {
    let names = [e(Name, 5, 0), e(Name, 6, 0), e(Or, 0, 1), e(Box, 2, 0)];
    let both = [e(Diamond, 3, 0), e(Nu, 4, 0), e(Nu, 5, 0)];
    let inner = [e(Name, 11, 0), e(Or, 7, 6), e(Box, 8, 0), e(Diamond, 9, 0)];
    let last = [e(Nu, 10, 0), e(Or, 11, 6), e(Nu, 11, 0)];
    let least = least(&[&names[..], &both, &inner, &last].concat());
    assert_eq!(least[7..], [5, 2, 3, 4, 5, 2, 13]);
}

/// The time of one call, the best of five.
fn time(entries: &[Entry]) -> Duration {
    let times = [(); 5].map(|()| {
        let start = Instant::now();
        assert_eq!(least_alike(entries).len(), entries.len());
        start.elapsed()
    });
    times.into_iter().min().unwrap_or_default()
}

/// Two towers of 2^127 parts each, every operand from either.
#[test]
fn towers_of_twins() {
    let mut rng = Rng::new(6);
    let mut entries = vec![e(Letter, 0, 0); 2];
    for level in 1..128 {
        for _ in 0..2 {
            let mut below = || 2 * level - 2 + rng.below(2) as u16;
            entries.push(e(Or, below(), below()));
        }
    }
    let pairs: Vec<u16> = (0..256).map(|at| at / 2 * 2).collect();
    assert_eq!(least_alike(&entries), pairs);
    let tower = tower(And, 255);
    assert_eq!(least_alike(&tower), (0..256).collect::<Vec<u16>>());
}

#[test]
fn tables_hard_to_walk_take_no_time() {
    let tables = [
        ("tower of 255", tower(Or, 255)),
        ("64 deep", nest(Nu, Box, Or, 64)),
        ("80 deep", funnel(Mu, Diamond, And, 80)),
        ("127 side by side", side_by_side(127)),
        ("64 names in 128 entries", crowd(64)),
        ("85 names in 86 entries", crowd(85)),
    ];
    for (name, entries) in tables {
        assert!(is_well_formed(&entries), "{name}");
        let taken = time(&entries);
        println!("{name}: {taken:?}");
        assert!(taken < Duration::from_millis(50), "{name}: {taken:?}");
    }
}

/// Entries of one formula have one meaning, in large tables too.
#[test]
fn alike_entries_have_one_meaning() {
    let mut models = generate::models(7);
    let mut pairs = 0;
    for record in generate::twins(8).take(2_000) {
        let entries = Claim::read(&record.claim).expect("well formed").entries;
        let least = least_alike(&entries);
        for model in models.by_ref().take(3) {
            let words = evaluate(&record.claim, &model).expect("well formed");
            for (at, &least) in least.iter().enumerate() {
                assert_eq!(words[at], words[usize::from(least)], "{at} of {entries:?}");
                pairs += usize::from(at != usize::from(least));
            }
        }
    }
    println!("{pairs} words of entries that look like a lower one");
}
