//! Inputs on which a walk without memory, or rounds started afresh, would not
//! end in any time: that these tests finish is the point.

use reference::generate::extremes::{funnel, nest, side_by_side, tower};
use reference::generate::{self, Rng};
use reference::{draft, evaluate, Entry, Kind, Model};
use std::time::{Duration, Instant};

/// Evaluates a claim on the topmost entry in many models; answers the time of
/// the slowest, each the best of three runs.
fn run(entries: &[Entry]) -> Duration {
    let last = (entries.len() - 1) as u16;
    let claim = draft::claim(entries, &[last]).bytes;
    let mut slowest = Duration::ZERO;
    let large = generate::models(41).filter(|model| model[4] >= 60);
    for model in large.take(40).chain([circle(64), chain(64)]) {
        let all = Model::read(&model).expect("well formed").all();
        let times = [(); 3].map(|()| {
            let start = Instant::now();
            let words = evaluate(&claim, &model).expect("well formed");
            assert!(words.iter().all(|word| word & !all == 0));
            start.elapsed()
        });
        slowest = slowest.max(times.into_iter().min().unwrap_or_default());
    }
    slowest
}

fn circle(states: u8) -> Vec<u8> {
    let rows = (0..states).flat_map(|state| [2, 1, (state + 1) % states]);
    b"MDL1"
        .iter()
        .copied()
        .chain([states])
        .chain(rows)
        .collect()
}

/// Each state leads to the one before; only state 0 has letter 0 and no way on.
fn chain(states: u8) -> Vec<u8> {
    let rows = (1..states).flat_map(|state| [2, 1, state - 1]);
    let first = [1, 1, 0, 0, 0];
    let head = b"MDL1".iter().copied().chain([states]).chain(first);
    head.chain(rows).collect()
}

#[test]
fn towers_of_shared_operands() {
    for kind in [Kind::Or, Kind::And] {
        println!("tower of 250 {kind:?}: {:?}", run(&tower(kind, 250)));
    }
}

#[test]
fn fixpoints_in_fixpoints() {
    for kind in [Kind::Mu, Kind::Nu] {
        for modality in [Kind::Diamond, Kind::Box] {
            for join in [Kind::Or, Kind::And] {
                let nested = run(&nest(kind, modality, join, 64));
                let funnel = run(&funnel(kind, modality, join, 80));
                println!("{kind:?} {modality:?} {join:?}: 64 deep {nested:?}, 80 deep {funnel:?}");
            }
        }
    }
}

#[test]
fn fixpoints_side_by_side() {
    println!("120 side by side: {:?}", run(&side_by_side(120)));
}

/// A letter reached step by step: one round per state and fixpoint.
#[test]
fn slow_rounds_through_a_nest() {
    let depth = 60;
    let mut entries = vec![Entry::new(Kind::Letter, 0, 0)];
    let fixpoint = |level: u16| 4 * level + 4;
    for level in 0..depth {
        let below = entries.len() as u16 - 1;
        let at = below + 1;
        entries.push(Entry::new(Kind::Name, fixpoint(level), 0));
        entries.push(Entry::new(Kind::Diamond, at, 0));
        entries.push(Entry::new(Kind::Or, at + 1, below));
        entries.push(Entry::new(Kind::Mu, at + 2, 0));
    }
    println!("60 over one another: {:?}", run(&entries));
    let last = (entries.len() - 1) as u16;
    let claim = draft::claim(&entries, &[last]).bytes;
    let words = evaluate(&claim, &chain(64)).expect("well formed");
    assert_eq!(words[usize::from(last)], u64::MAX);
}

/// Noise of any length never panics.
#[test]
fn noise_is_refused() {
    let mut rng = Rng::new(42);
    for length in 0..400 {
        let noise: Vec<u8> = (0..length).map(|_| rng.word() as u8).collect();
        for opening in [
            &b"CLM1"[..],
            b"CLM2",
            b"PRF1",
            b"PRF2",
            b"MDL1",
            b"MDL2",
            b"",
        ] {
            let file = [opening, &noise].concat();
            assert!(reference::check(&file, &file) != 0);
            assert!(evaluate(&file, &file).is_err());
        }
    }
}
