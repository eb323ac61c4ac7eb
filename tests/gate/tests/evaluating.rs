//! Evaluation, over the vectors and over random claims and models: the answer and
//! every place of the lent slices.

use gate_tests::lent::{LentWords, ENTRIES, MODEL_BYTES, WORDS};
use gate_tests::{decode, evaluate, hard, random, setting, vectors};
use reference::corpus::EvalRecord;
use reference::draft::{self, DraftState};
use reference::generate::{self, extremes};
use reference::{answer_wide, describe_wide, Entry, Kind, Refusal, ACTIONS};
use std::collections::BTreeMap;

/// "Refusals 1 to 34 and 60 to 64 write nothing to lent slices", nor do 71 and 72. "...
/// after a finished evaluation, record slices hold the whole decoding".
fn assert_evaluated(record: &EvalRecord, lent: &mut LentWords, what: &str) {
    lent.renew();
    let got = evaluate(&record.claim, &record.model, lent);
    assert_eq!(describe_wide(got), describe_wide(record.answer), "{what}");
    match record.answer {
        0 => lent.assert_holds(&decode::entries(&record.claim), &record.words, what),
        _ => lent.assert_untouched(what),
    }
}

/// A record with the reference's opinion.
fn judged(claim: &[u8], model: &[u8]) -> EvalRecord {
    let outcome = reference::evaluate(claim, model);
    EvalRecord {
        claim: claim.to_vec(),
        model: model.to_vec(),
        answer: answer_wide(&outcome),
        words: outcome.unwrap_or_default(),
    }
}

#[test]
fn every_eval_record_in_slices_of_the_least_lengths() {
    let mut lent = LentWords::least();
    let mut evaluated = 0;
    let records = vectors::evals();
    for (index, record) in records.iter().enumerate() {
        assert_evaluated(record, &mut lent, &format!("eval record {index}"));
        evaluated += u64::from(record.answer == 0);
    }
    assert!(evaluated > 350, "only {evaluated} records are evaluated");
    let all = records.len();
    println!("gate: {all} eval records agree, {evaluated} evaluated");
}

#[test]
fn every_eval_record_in_longer_slices() {
    let records = vectors::evals();
    for (entries, words) in [(1, 1), (300, 0), (0, 300), (4096, 4096)] {
        let mut lent = LentWords::new(ENTRIES + entries, WORDS + words);
        for (index, record) in records.iter().enumerate() {
            let what = format!("eval record {index}, {entries} and {words} more");
            assert_evaluated(record, &mut lent, &what);
        }
    }
}

/// Slices that hold what one pair left are lent for the next.
#[test]
fn what_stood_in_the_slices_does_not_count() {
    let mut lent = LentWords::least();
    for (index, record) in vectors::evals().iter().enumerate() {
        let got = evaluate(&record.claim, &record.model, &mut lent);
        assert_eq!(
            describe_wide(got),
            describe_wide(record.answer),
            "eval record {index}"
        );
        assert!(lent.words.lend().starts_with(&record.words));
    }
}

/// "1: a lent slice under 256 entries ... or 256 words", before anything of the
/// files.
#[test]
fn a_short_slice_earns_1_and_is_not_written() {
    let records = vectors::evals();
    let chosen: BTreeMap<u32, &EvalRecord> = records
        .iter()
        .map(|record| (record.number(), record))
        .collect();
    assert!(chosen.len() > 10, "few numbers: {:?}", chosen.keys());
    for (entries, words) in [
        (255, WORDS),
        (ENTRIES, 255),
        (0, WORDS),
        (ENTRIES, 0),
        (255, 255),
        (0, 0),
        (255, 5000),
        (5000, 255),
    ] {
        let mut lent = LentWords::new(entries, words);
        for record in chosen.values() {
            let got = evaluate(&record.claim, &record.model, &mut lent);
            let what = format!(
                "{entries} and {words}, else {}",
                describe_wide(record.answer)
            );
            assert_eq!(describe_wide(got), "refuse 1 at 0", "{what}");
            lent.assert_untouched(&what);
        }
    }
}

/// What a run of random pairs was like.
#[derive(Default)]
struct Shares {
    total: u64,
    evaluated: u64,
    /// Pairs with a fixpoint true at some states and false at others.
    split: u64,
    /// Pairs in which boxes and diamonds by an action other than 0 meet a model
    /// with actions.
    by_action: u64,
    /// Claims of the form of several goals, and of these how many are evaluated.
    goals: u64,
    goals_evaluated: u64,
    /// Pairs evaluated without goals, and of these how many without entries.
    no_goals: u64,
    no_entries: u64,
    refusals: BTreeMap<u32, u64>,
}

impl Shares {
    fn count(&mut self, record: &EvalRecord) {
        self.total += 1;
        let goals = record.claim.starts_with(b"CLM2");
        self.goals += u64::from(goals);
        self.goals_evaluated += u64::from(goals && record.answer == 0);
        if record.answer != 0 {
            *self.refusals.entry(record.number()).or_default() += 1;
            return;
        }
        self.evaluated += 1;
        let states = u32::from(record.model[4]);
        let entries = decode::entries(&record.claim);
        self.no_goals += u64::from(decode::goals(&record.claim).is_empty());
        self.no_entries += u64::from(entries.is_empty());
        let split = entries.iter().zip(&record.words).any(|(entry, word)| {
            let fixpoint = entry.kind == Kind::Mu as u8 || entry.kind == Kind::Nu as u8;
            fixpoint && *word != 0 && word.count_ones() != states
        });
        self.split += u64::from(split);
        let modal = |kind| kind == Kind::Diamond as u8 || kind == Kind::Box as u8;
        let other = entries
            .iter()
            .any(|entry| modal(entry.kind) && entry.b != 0);
        self.by_action += u64::from(other && record.model.starts_with(b"MDL2"));
    }

    /// With few pairs evaluated the words would hardly be tried, and with few
    /// fixpoints between no state and all their rounds would not. Both shares are
    /// in hundredths.
    fn assert_telling(&self, what: &str, evaluated: u64, split: u64) {
        let share = |part: u64| 100.0 * part as f64 / self.total as f64;
        println!(
            "gate: {} {what} agree, {:.1} % evaluated, {:.1} % with a fixpoint true at some \
             states only, {:.1} % by action, {:.1} % of several goals ({} of them evaluated), {} \
             evaluated without goals ({} without entries); refusals {:?}",
            self.total,
            share(self.evaluated),
            share(self.split),
            share(self.by_action),
            share(self.goals),
            self.goals_evaluated,
            self.no_goals,
            self.no_entries,
            self.refusals
        );
        assert!(self.no_goals * 50 > self.total && self.no_entries * 100 > self.total);
        assert!(self.by_action * 5 > self.total);
        assert!(self.goals * 3 > self.total && self.goals_evaluated * 5 > self.total);
        let all = (10..=14).chain(20..=23).chain(60..=64).chain([71, 72]);
        let missing: Vec<u32> = all.filter(|n| !self.refusals.contains_key(n)).collect();
        assert!(missing.is_empty() || self.total < 10_000, "no {missing:?}");
        assert!(self.evaluated * 100 > self.total * evaluated);
        assert!(self.split * 100 > self.total * split);
    }
}

/// Claims laid down from below; `GATE_EVALS` sets how many, `GATE_SEED` the seed.
#[test]
fn random_claims_and_models_agree() {
    let mut lent = LentWords::least();
    let mut shares = Shares::default();
    let pairs = random::pairs(setting("GATE_SEED", 1));
    for (index, pair) in pairs
        .take(setting("GATE_EVALS", 20_000) as usize)
        .enumerate()
    {
        let record = judged(&pair.claim, &pair.model);
        assert!(
            pair.damaged || record.answer == 0,
            "pair {index} was meant to be well formed: {}",
            describe_wide(record.answer)
        );
        assert_evaluated(&record, &mut lent, &format!("random pair {index}"));
        shares.count(&record);
    }
    shares.assert_telling("random claims and models", 60, 25);
}

/// Claims grown from above and claims hard to walk, by the reference's generator.
#[test]
fn generated_claims_and_models_agree() {
    let mut lent = LentWords::least();
    let mut shares = Shares::default();
    let records = generate::evals(setting("GATE_SEED", 1));
    for (index, record) in records
        .take(setting("GATE_EVALS", 20_000) as usize)
        .enumerate()
    {
        assert_evaluated(&record, &mut lent, &format!("generated pair {index}"));
        shares.count(&record);
    }
    shares.assert_telling("generated claims and models", 40, 10);
}

/// Rounds by the thousand: a bound of as many as there are states, right for one
/// fixpoint, is too low for several settled at once.
#[test]
fn many_rounds_agree() {
    let mut lent = LentWords::least();
    let mut assert_all = |entries: &[Entry], model: &[u8], top: u64, what: &str| {
        let record = judged(&hard::claim(entries), model);
        assert_eq!(record.words.last(), Some(&top), "{what}: not as meant");
        assert_evaluated(&record, &mut lent, what);
        record.words
    };
    for fixpoints in [1, 2, 3, 7, 20, 50] {
        for states in [1, 2, 63, 64] {
            let path = hard::path(states);
            let all = u64::MAX >> (64 - states);
            for (kind, top) in [(Kind::Mu, all), (Kind::Nu, 0)] {
                let what = format!("{fixpoints} {kind:?} on a path of {states}");
                let entries = hard::relay(kind, fixpoints, 3);
                let words = assert_all(&entries, &path, top, &what);
                let fixpoint = |&number: &usize| entries[number].kind == kind;
                let mut fixpoints = (0..entries.len()).filter(fixpoint);
                assert!(fixpoints.all(|number| words[number] == top), "{what}");
            }
        }
    }
    for depth in [2, 3, 10, 60] {
        let entries = hard::snake(depth);
        let what = format!("{depth} mu in one another");
        assert_all(&entries, &hard::turns(), (1 << 62) - 1, &what);
    }
    assert_all(&hard::apart(63), &hard::path(64), u64::MAX, "63 apart");
}

/// Fixpoints of one kind in one another beside closed ones of the other kind.
#[test]
fn mixed_blocks_agree() {
    let mut lent = LentWords::least();
    let models: Vec<Vec<u8>> = generate::models(setting("GATE_SEED", 1))
        .take(200)
        .collect();
    for depth in [1, 2, 5, 21] {
        for kind in [Kind::Mu, Kind::Nu] {
            let claim = hard::claim(&hard::mixed(kind, depth));
            for (index, model) in models.iter().enumerate() {
                let record = judged(&claim, model);
                assert_eq!(record.answer, 0, "{kind:?}, {depth} deep");
                let what = format!("{kind:?}, {depth} deep, model {index}");
                assert_evaluated(&record, &mut lent, &what);
            }
        }
    }
}

/// Each file of a good pair cut at each place, and with a byte more.
#[test]
fn every_cut_of_a_good_pair_agrees() {
    let mut lent = LentWords::least();
    let good = random::pairs(5).filter(|pair| !pair.damaged);
    for pair in good.take(30) {
        let (claim, model) = (&pair.claim, &pair.model);
        for length in 0..claim.len() {
            let record = judged(&claim[..length], model);
            assert_evaluated(&record, &mut lent, &format!("claim of {length} bytes"));
        }
        for length in 0..model.len() {
            let record = judged(claim, &model[..length]);
            assert_evaluated(&record, &mut lent, &format!("model of {length} bytes"));
        }
        let record = judged(claim, &[model, &[0][..]].concat());
        assert_eq!(refusal(&record), Some((61, model.len())));
        assert_evaluated(&record, &mut lent, "model with a byte more");
    }
}

#[test]
fn every_map_of_a_state_and_every_state_count_agrees() {
    let mut lent = LentWords::least();
    let claim = random::pairs(6)
        .find(|pair| !pair.damaged)
        .expect("a pair")
        .claim;
    for opening in [b"MDL1", b"MDL2"] {
        for byte in 0..=255 {
            for at in [4, 5] {
                let mut model = [&opening[..], b"\x02\x00\x00\x00\x00\x00\x00\x00"].concat();
                model[at] = byte;
                for length in 5..=model.len() {
                    let record = judged(&claim, &model[..length]);
                    assert_evaluated(&record, &mut lent, &format!("{model:?} cut to {length}"));
                }
            }
        }
    }
}

/// A letter, its negation, and a diamond of the one and a box of the other by each
/// of these actions.
fn by_each(actions: impl IntoIterator<Item = u16>) -> Vec<u8> {
    let mut entries = vec![
        Entry::new(Kind::Letter, 0, 0),
        Entry::new(Kind::Negated, 0, 0),
    ];
    for action in actions {
        entries.push(Entry::new(Kind::Diamond, 0, action));
        entries.push(Entry::new(Kind::Box, 1, action));
    }
    hard::claim(&entries)
}

fn by_each_action() -> Vec<u8> {
    by_each(0..ACTIONS as u16)
}

/// Each mark of each action's table by itself: it is seen by that action's diamond
/// and box, at that state, and by no other.
#[test]
fn each_mark_of_each_action() {
    let mut lent = LentWords::least();
    let claim = by_each_action();
    for action in 0..ACTIONS {
        for (state, next) in (0..64).flat_map(|state| (0..64).map(move |next| (state, next))) {
            let mut states = vec![DraftState::default(); 64];
            states[next].letters = 1;
            states[state].successors[action] = vec![next as u8];
            let record = judged(&claim, &draft::action_model(&states).bytes);
            let what = format!("{state} to {next} by {action}");
            assert_evaluated(&record, &mut lent, &what);
            for (other, words) in record.words[2..].chunks(2).enumerate() {
                let seen = u64::from(other == action) << state;
                assert_eq!(words, [seen, !seen], "{what}, by {other}");
            }
        }
    }
}

/// From no edge to all of them, for claims of one, two and all actions: the gate has
/// one way of its own for models of few edges and one for models of many.
#[test]
fn every_density_of_edges_agrees() {
    let mut lent = LentWords::least();
    let claims = [by_each([5]), by_each([0, 15]), by_each_action()];
    for (states, eighths) in (1..=64).flat_map(|states| (0..=8).map(move |part| (states, part))) {
        let model = hard::action_model(
            states,
            |state| u32::from(state % 3 == 1),
            |action, state, next| {
                let edge = action * 4096 + state * 64 + next;
                (edge.wrapping_mul(0x9E37_79B9) >> 17) % 8 < eighths
            },
        );
        for (number, claim) in claims.iter().enumerate() {
            let what = format!("{states} states, {eighths} of 8 edges, claim {number}");
            assert_evaluated(&judged(claim, &model), &mut lent, &what);
        }
    }
}

/// "In an `MDL1` file actions other than 0 have no successors."
#[test]
fn an_old_model_has_action_0_alone() {
    let mut lent = LentWords::least();
    let claim = by_each_action();
    for states in [1, 2, 63, 64] {
        let model = hard::model(states, |_| 1, |_, _| true);
        let record = judged(&claim, &model);
        assert_evaluated(&record, &mut lent, &format!("{states} states"));
        let all = u64::MAX >> (64 - states);
        assert_eq!(record.words[2..4], [all, 0]);
        assert!(record.words[4..].chunks(2).all(|words| words == [0, all]));
    }
}

/// Every map of actions on one of two states, with as many lists as it asks for,
/// a byte less and a byte more.
#[test]
fn every_map_of_actions_agrees() {
    let mut lent = LentWords::least();
    let claim = by_each_action();
    for map in 0..=u16::MAX {
        let lists = [1, 1].repeat(map.count_ones() as usize);
        let [low, high] = map.to_le_bytes();
        let model = [
            b"MDL2\x02\x01\x01\x00\x00\x00\x02",
            &[low, high][..],
            &lists,
        ]
        .concat();
        for length in [model.len() - 1, model.len()] {
            let record = judged(&claim, &model[..length]);
            assert_evaluated(&record, &mut lent, &format!("map {map:#x}, {length} bytes"));
        }
        let record = judged(&claim, &[&model[..], &[0]].concat());
        assert_evaluated(&record, &mut lent, &format!("map {map:#x}, a byte more"));
    }
}

/// The longest model, whole, and cut, with a byte more or with another byte at each
/// place above 65,535: places that two bytes do not hold.
#[test]
fn the_longest_model_broken_at_every_far_place() {
    let mut lent = LentWords::least();
    let claim = by_each_action();
    let model = extremes::longest_model().bytes;
    assert_eq!(model.len(), MODEL_BYTES);
    let record = judged(&claim, &model);
    assert_eq!(record.answer, 0);
    assert_evaluated(&record, &mut lent, "the longest model");
    let mut far = BTreeMap::new();
    let mut assert_alike = |model: &[u8], what: &str| {
        let record = judged(&claim, model);
        assert_evaluated(&record, &mut lent, what);
        if record.answer as u32 > 65_535 {
            *far.entry(record.number()).or_insert(0) += 1;
        }
    };
    for at in 65_536..=model.len() {
        assert_alike(&model[..at], &format!("cut to {at}"));
        let inserted = [&model[..at], &[0], &model[at..]].concat();
        assert_alike(&inserted, &format!("a zero more at {at}"));
    }
    for at in 65_536..model.len() {
        for byte in [0, 0xFF, model[at] ^ 1, model[at].wrapping_add(1)] {
            let mut broken = model.clone();
            broken[at] = byte;
            assert_alike(&broken, &format!("{byte} at {at}"));
        }
    }
    println!("gate: the longest model broken, refusals at places above 65,535: {far:?}");
    assert!(
        [61, 63, 64].iter().all(|number| far[number] > 30),
        "{far:?}"
    );
}

/// "71 ... nothing written", whatever the model is.
#[test]
fn an_unfit_action_comes_before_the_model() {
    let mut lent = LentWords::least();
    let entries = |action| {
        [
            Entry::new(Kind::True, 0, 0),
            Entry::new(Kind::Box, 0, action),
        ]
    };
    let written_out = draft::claim_written_out(&entries(0), &[0], |_| true).bytes;
    let above = [16, 17, 255, 256, 65_535].map(|n| draft::claim(&entries(n), &[0]).bytes);
    for claim in [&[written_out][..], &above].concat() {
        for model in [&b""[..], b"MDL1", b"MDL2\x01\x02\x00\x00", b"MDL2\x01\x00"] {
            let record = judged(&claim, model);
            assert_eq!(refusal(&record), Some((71, 1)));
            assert_evaluated(&record, &mut lent, &format!("{claim:?}"));
        }
    }
}

/// "72 ... judged where it is read ... nothing written", whatever the model is. The
/// goals say nothing else to an evaluation: its words are those of the entries.
#[test]
fn goals_of_an_evaluated_claim() {
    let mut lent = LentWords::least();
    let entries = [Entry::new(Kind::Letter, 0, 0), Entry::new(Kind::Box, 0, 0)];
    let model = hard::model(3, |state| state as u32 & 1, |state, next| next == state + 1);
    let one = judged(&draft::claim(&entries, &[1]).bytes, &model);
    for goals in 0..20 {
        let claim = draft::goal_claim(&entries, &vec![vec![0, 1]; goals]).bytes;
        let what = format!("{goals} goals");
        for model in [&model[..], b"", b"MDL2\x01\x02\x00\x00"] {
            assert_evaluated(&judged(&claim, model), &mut lent, &what);
        }
        let record = judged(&claim, &model);
        match goals {
            0..=16 => assert_eq!(record.words, one.words, "{what}"),
            _ => assert_eq!(refusal(&record), Some((72, 14)), "{what}"),
        }
    }
}

/// "An evaluation without entries is done and writes no word", in any model; its model
/// is judged. "Slices under their length get 1 all the same."
#[test]
fn no_entries() {
    let claim = b"CLM2\0\0\0\0";
    let mut lent = LentWords::least();
    let models = generate::models(setting("GATE_SEED", 1)).take(300);
    for model in models.chain([extremes::longest_model().bytes]) {
        let record = judged(claim, &model);
        assert_eq!((record.answer, record.words.len()), (0, 0));
        assert_evaluated(&record, &mut lent, "no entries");
        lent.assert_untouched("no entries");
        for length in [0, 3, 4, 5, model.len() - 1] {
            let cut = judged(claim, &model[..length]);
            assert!((60..=61).contains(&cut.number()));
            assert_evaluated(&cut, &mut lent, "no entries, a cut model");
        }
        let longer = judged(claim, &[&model[..], &[0]].concat());
        assert_eq!(refusal(&longer), Some((61, model.len())));
        assert_evaluated(&longer, &mut lent, "no entries, a longer model");
    }
    for (entries, words) in [(ENTRIES, 255), (ENTRIES, 0), (255, WORDS), (0, 0)] {
        let mut short = LentWords::new(entries, words);
        let got = evaluate(claim, b"MDL1\x01\0", &mut short);
        assert_eq!(describe_wide(got), "refuse 1 at 0");
        short.assert_untouched("no entries, short slices");
    }
}

/// Files far longer than any good one, where a length could be cut to two bytes.
#[test]
fn long_files_agree() {
    let mut lent = LentWords::least();
    for pair in random::pairs(7).filter(|pair| !pair.damaged).take(20) {
        for length in [65_536, 65_537, 70_000, 200_000] {
            let mut long = pair.claim.clone();
            long.resize(length, 0xFF);
            let record = judged(&long, &pair.model);
            assert_eq!(refusal(&record), Some((11, pair.claim.len())));
            assert_evaluated(&record, &mut lent, "a long claim");
            let mut long = pair.model.clone();
            long.resize(length, 0xFF);
            let record = judged(&pair.claim, &long);
            assert_eq!(refusal(&record), Some((61, pair.model.len())));
            assert_evaluated(&record, &mut lent, "a long model");
        }
    }
}

fn refusal(record: &EvalRecord) -> Option<(u16, usize)> {
    let refusal = Refusal::unpack_wide(record.answer);
    refusal.map(|refusal| (refusal.number, refusal.place as usize))
}
