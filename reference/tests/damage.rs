//! Cut files, bytes that follow, every map with every kind and rule, and models
//! broken in every way.

use reference::draft::{self, DraftState, Mark};
use reference::generate::{self, extremes};
use reference::{answer_wide, check, describe, describe_wide, evaluate};

fn refusal(number: u32, place: usize) -> String {
    format!("refuse {number} at {place}")
}

/// What a good file cut to `length` bytes earns.
fn cut_refusal(opening: u32, length: usize) -> String {
    match length {
        0..=3 => refusal(opening, 0),
        _ => refusal(opening + 1, length),
    }
}

fn checked(claim: &[u8], proof: &[u8]) -> String {
    describe(check(claim, proof))
}

fn evaluated(claim: &[u8], model: &[u8]) -> String {
    describe_wide(answer_wide(&evaluate(claim, model)))
}

/// In both forms.
#[test]
fn every_cut_of_good_files() {
    let mut models = generate::models(31);
    for (claim, proof) in generate::accepted(32).take(200) {
        let model = models.next().expect("the run is endless");
        for length in 0..claim.len() {
            assert_eq!(checked(&claim[..length], &proof), cut_refusal(10, length));
            assert_eq!(evaluated(&claim[..length], &model), cut_refusal(10, length));
        }
        for length in 0..proof.len() {
            assert_eq!(checked(&claim, &proof[..length]), cut_refusal(30, length));
        }
        for length in 0..model.len() {
            assert_eq!(evaluated(&claim, &model[..length]), cut_refusal(60, length));
        }
    }
}

#[test]
fn bytes_that_follow() {
    let mut models = generate::models(33);
    for (claim, proof) in generate::accepted(34).take(200) {
        let model = models.next().expect("the run is endless");
        let longer = |file: &[u8]| [file, &[0, 0]].concat();
        assert_eq!(checked(&longer(&claim), &proof), refusal(11, claim.len()));
        assert_eq!(checked(&claim, &longer(&proof)), refusal(31, proof.len()));
        assert_eq!(evaluated(&claim, &longer(&model)), refusal(61, model.len()));
    }
}

/// Kinds with the maps each has, written out from the specification.
fn kind_fits(map: u8, kind: u8) -> bool {
    match kind {
        0 | 1 => map == 0,
        2 | 3 | 8..=10 => map == 1,
        4 | 5 => map == 3,
        6 | 7 => map == 1 || map == 3,
        _ => false,
    }
}

/// Rules with their low four bits; bit 4 is free, bits 5 to 7 are zero.
fn rule_fits(map: u8, rule: u8) -> bool {
    let low_bits = match rule {
        0 | 1 => 0,
        2 | 4..=9 => 3,
        3 => 7,
        10 => 2,
        11 => 8,
        _ => return false,
    };
    map == low_bits || map == low_bits + 16
}

#[test]
fn every_map_with_every_kind() {
    for (opening, pair) in [b"CLM1", b"CLM2"]
        .into_iter()
        .flat_map(|opening| (0..=u16::MAX).map(move |pair| (opening, pair)))
    {
        let [map, kind] = pair.to_le_bytes();
        let claim = [opening, &[1, 0, map, kind][..]].concat();
        let fields = usize::from(map & 1) + usize::from(map >> 1 & 1);
        let answer = checked(&[&claim[..], &[0].repeat(2 * fields)].concat(), b"");
        match kind_fits(map, kind) {
            true => assert_eq!(answer, refusal(11, 8 + 2 * fields)),
            false => assert_eq!(answer, "refuse 13 at 6"),
        }
    }
}

#[test]
fn every_map_with_every_rule() {
    for pair in 0..=u16::MAX {
        let [map, rule] = pair.to_le_bytes();
        let one = [b"PRF1", &[1, 0, map, rule][..]].concat();
        let several = [b"PRF2", &[1, 0, 0, 0, map, rule][..]].concat();
        for (claim, proof, at) in [(TRUTH, one, 6), (TRUE_GOAL, several, 8)] {
            let answer = checked(claim, &proof);
            match rule_fits(map, rule) {
                true if map == 0 => assert_eq!(answer, "refuse 36 at 0"),
                true => assert_eq!(answer, refusal(31, at + 2)),
                false => assert_eq!(answer, refusal(33, at)),
            }
        }
    }
}

const TRUTH: &[u8] = b"CLM1\x01\x00\x00\x01\x01\x00\x00\x00";
const TRUE_GOAL: &[u8] = b"CLM2\x01\x00\x00\x01\x01\x00\x01\x00\x00\x00";

#[test]
fn every_map_of_a_state() {
    for opening in [b"MDL1", b"MDL2"] {
        for map in 0..=255 {
            let model = [&opening[..], &[1, map]].concat();
            let expected = match map {
                0 => "accept",
                1..=3 => "refuse 61 at 6",
                _ => "refuse 63 at 5",
            };
            assert_eq!(evaluated(TRUTH, &model), expected);
        }
    }
}

/// One state with bit 1: of a map with n bits as many counts and lists are asked
/// for, whatever the map.
#[test]
fn every_map_of_actions() {
    for map in 0..=u16::MAX {
        let [low, high] = map.to_le_bytes();
        let lists = map.count_ones() as usize;
        let model = [b"MDL2\x01\x02", &[low, high][..], &[1, 0].repeat(lists)].concat();
        let expected = match map {
            0 => "refuse 63 at 5",
            _ => "accept",
        };
        assert_eq!(evaluated(TRUTH, &model), expected);
        let cut = evaluated(TRUTH, &model[..model.len() - 1]);
        assert_eq!(cut, refusal(61, model.len() - 1));
        let more = [&model[..], &[0]].concat();
        let expected = match map {
            0 => refusal(63, 5),
            _ => refusal(61, model.len()),
        };
        assert_eq!(evaluated(TRUTH, &more), expected);
    }
}

/// Three states with letters, the middle one with successors by three actions.
fn by_actions() -> draft::File {
    let mut states = vec![DraftState::new(1, vec![0, 2]); 3];
    states[1].successors[3] = vec![1];
    states[1].successors[15] = vec![0, 1, 2];
    draft::action_model(&states)
}

/// The state whose bytes an offset is among, by the place of its bit map.
fn map_before(file: &draft::File, at: usize) -> usize {
    let maps = file.marks.iter().filter(|mark| mark.0 == Mark::Map);
    let mut before = maps.map(|mark| mark.1).filter(|&map| map < at);
    before.next_back().expect("a state's bit map")
}

/// "an empty map of actions, like a zero count, gets 63 at the state's bit map",
/// and so does a zero mask.
#[test]
fn what_may_not_be_zero_in_a_model() {
    let file = by_actions();
    let mut zeros = 0;
    for &(mark, at, width) in &file.marks {
        if !matches!(mark, Mark::Actions | Mark::Count | Mark::Field) || at == 4 {
            continue;
        }
        let mut model = file.bytes.clone();
        model[at..at + width].fill(0);
        let expected = refusal(63, map_before(&file, at));
        assert_eq!(evaluated(TRUTH, &model), expected, "{mark:?} at {at}");
        // Judged once its bytes are there, whatever follows.
        let all_there = &model[..at + width];
        assert_eq!(evaluated(TRUTH, all_there), expected);
        let one_short = &model[..at + width - 1];
        assert_eq!(
            evaluated(TRUTH, one_short),
            refusal(61, at + width - 1),
            "{mark:?} at {at}"
        );
        zeros += 1;
    }
    assert_eq!(zeros, 3 + 3 + 5);
}

/// A successor that is no state, and one that is no higher than the one before it
/// in its own list: lists of different actions do not know each other.
#[test]
fn successors_of_each_action() {
    let file = by_actions();
    let members: Vec<usize> = file
        .marks
        .iter()
        .filter(|mark| mark.0 == Mark::Member)
        .map(|mark| mark.1)
        .collect();
    assert_eq!(evaluated(TRUTH, &file.bytes), "accept");
    for &at in &members {
        for beyond in [3, 64, 255] {
            let mut model = file.bytes.clone();
            model[at] = beyond;
            assert_eq!(evaluated(TRUTH, &model), refusal(64, at));
        }
        if members.contains(&(at - 1)) {
            let mut model = file.bytes.clone();
            model[at] = model[at - 1];
            assert_eq!(evaluated(TRUTH, &model), refusal(64, at));
        }
    }
}

#[test]
fn every_cut_of_a_model_by_actions() {
    let file = by_actions();
    for length in 0..file.bytes.len() {
        let cut = evaluated(TRUTH, &file.bytes[..length]);
        assert_eq!(cut, cut_refusal(60, length));
    }
}

/// Places above 65,535 are whole.
#[test]
fn the_longest_model() {
    let file = extremes::longest_model();
    let model = &file.bytes;
    assert_eq!(model.len(), 67_013);
    assert_eq!(evaluate(TRUTH, model), Ok(vec![u64::MAX]));
    let longer = [&model[..], &[0]].concat();
    assert_eq!(evaluated(TRUTH, &longer), "refuse 61 at 67013");
    for length in 65_500..model.len() {
        let cut = evaluated(TRUTH, &model[..length]);
        assert_eq!(cut, refusal(61, length));
    }
    for &(mark, at, _) in file.marks.iter().filter(|mark| mark.1 > 65_500) {
        let mut broken = model.clone();
        broken[at] = 0xFF;
        let expected = match mark {
            Mark::Map => refusal(63, at),
            Mark::Member => refusal(64, at),
            // What follows the list is no higher successor, or nothing follows.
            Mark::Count if at + 65 < model.len() => refusal(64, at + 65),
            Mark::Count => refusal(61, model.len()),
            // As it was.
            Mark::Field | Mark::Actions => "accept".to_string(),
            Mark::Goals | Mark::Root => panic!("no mark of a model"),
        };
        assert_eq!(evaluated(TRUTH, &broken), expected, "{mark:?} at {at}");
    }
}

/// "71, an action above 15 or a 0 written out in B, judged after 20 at each entry
/// in the same walk"
#[test]
fn actions_of_boxes_and_diamonds() {
    // A truth, then a box or diamond of it with B, then one of itself.
    let claim = |kind: u8, action: u16, last: u8| {
        let [low, high] = action.to_le_bytes();
        let entries = [0, 1, 3, kind, 0, 0, low, high, 1, 8, last, 0];
        let file = [b"CLM1\x03\x00", &entries[..], &[1, 0, 0, 0]].concat();
        checked(&file, b"")
    };
    for kind in [6, 7] {
        for action in 1..=15 {
            assert_eq!(claim(kind, action, 1), "refuse 30 at 0");
            assert_eq!(claim(kind, action, 2), "refuse 20 at 2");
        }
        for action in [0, 16, 17, 31, 255, 256, 271, 4096, 65_535] {
            assert_eq!(claim(kind, action, 1), "refuse 71 at 1");
            assert_eq!(claim(kind, action, 2), "refuse 71 at 1");
        }
    }
}

#[test]
fn bounds_come_before_actions_at_the_same_entry_and_before() {
    let entry = |a: u8, action: u8| [3, 7, a, 0, action, 0];
    let claim = |entries: [[u8; 6]; 3]| {
        let head = [&b"CLM1\x04\x00\x00\x01"[..], &entries.concat()].concat();
        checked(&[&head[..], &[1, 0, 0, 0]].concat(), b"")
    };
    let good = entry(0, 1);
    assert_eq!(claim([good, good, good]), "refuse 30 at 0");
    assert_eq!(claim([good, entry(9, 16), good]), "refuse 20 at 2");
    assert_eq!(claim([good, entry(9, 0), good]), "refuse 20 at 2");
    assert_eq!(claim([entry(0, 0), good, entry(9, 1)]), "refuse 71 at 1");
    assert_eq!(claim([entry(9, 1), good, entry(0, 0)]), "refuse 20 at 1");
    assert_eq!(claim([good, entry(0, 16), entry(9, 16)]), "refuse 71 at 2");
    // Before 21 to 23 of an earlier entry: mu of its own name is 23.
    let unguarded = b"CLM1\x04\x00\x00\x01\x01\x0a\x02\x00\x01\x08\x01\x00";
    let action = [&unguarded[..], &entry(0, 0), &[1, 0, 0, 0]].concat();
    assert_eq!(checked(&action, b""), "refuse 71 at 3");
    let none = [&unguarded[..], &[0, 1], &[1, 0, 0, 0]].concat();
    assert_eq!(checked(&none, b""), "refuse 23 at 2");
}
