//! Joining two proofs, over the vectors and over generated halves: the answer, both files
//! and every place of the lent slices, in slices of all lengths that matter. `GATE_JOINS`
//! sets how many halves are generated, `GATE_SEED` the seed.

use gate_tests::lent::LentFiles;
use gate_tests::{check, join, setting, vectors};
use reference::corpus::JoinRecord;
use reference::draft::{self, DraftNode};
use reference::generate::{self, extremes, Tally};
use reference::{describe, joined, Entry, Files, Joined, Kind, Lengths, Refusal, Rule};

const SHORT: Refusal = Refusal {
    number: 70,
    place: 0,
};

const NOTHING: Lengths = Lengths { claim: 0, proof: 0 };

fn shown(answer: u64) -> String {
    match answer >> 32 {
        0 => format!("{} and {} bytes", answer & 0xffff, answer >> 16),
        1 => describe(answer as u32),
        _ => format!("{answer:#x}"),
    }
}

fn lengths(joined: &Joined) -> Result<Lengths, Refusal> {
    joined.as_ref().map(Files::lengths).map_err(|r| *r)
}

/// The answer, the files at the start of the two slices or no byte of either, and nothing
/// else touched.
fn assert_in(
    record: &JoinRecord,
    room: Lengths,
    expected: &Joined,
    lent: &mut LentFiles,
    what: &str,
) {
    let JoinRecord {
        first,
        second,
        entry,
        ..
    } = record;
    let got = join(*entry, first, second, &mut lent.lend(room));
    let what = format!("{what} in {room:?}");
    assert_eq!(shown(got), shown(joined(lengths(expected))), "{what}");
    match expected {
        Ok(files) => lent.assert_holds(&files.claim, &files.proof, &what),
        Err(_) => lent.assert_holds(&[], &[], &what),
    }
}

/// In room enough, and where that is refused also in none.
fn assert_joined(record: &JoinRecord, lent: &mut LentFiles, what: &str) {
    assert_in(record, LentFiles::ROOM, &record.joined, lent, what);
    if record.joined.is_err() {
        assert_in(record, NOTHING, &record.joined, lent, what);
    }
}

/// A join in slices of just the lengths, of a few bytes more, and with each slice short in
/// turn and both: how many were short.
fn assert_rooms(record: &JoinRecord, lent: &mut LentFiles, what: &str) -> usize {
    let Ok(Lengths { claim, proof }) = lengths(&record.joined) else {
        return 0;
    };
    for (claim, proof) in [(claim, proof), (claim + 1, proof), (claim, proof + 7)] {
        let room = Lengths { claim, proof };
        assert_in(record, room, &record.joined, lent, what);
    }
    let long = LentFiles::ROOM;
    let short = [
        (claim - 1, proof),
        (claim, proof - 1),
        (claim - 1, long.proof),
        (long.claim, proof - 1),
        (claim - 1, proof - 1),
        (0, long.proof),
        (long.claim, 0),
        (0, 0),
    ];
    for (claim, proof) in short {
        let room = Lengths { claim, proof };
        assert_in(record, room, &Err(SHORT), lent, what);
    }
    short.len()
}

/// "The whole must be accepted."
fn assert_accepted(files: &Files, what: &str) {
    let Files { claim, proof } = files;
    assert_eq!(describe(check(claim, proof)), "accept", "{what}");
    assert_eq!(describe(reference::check(claim, proof)), "accept", "{what}");
}

#[test]
fn every_join_record_agrees() {
    let mut lent = LentFiles::default();
    let records = vectors::joins();
    let mut short = 0;
    for (index, record) in records.iter().enumerate() {
        let what = format!("join record {index}");
        assert_joined(record, &mut lent, &what);
        short += assert_rooms(record, &mut lent, &what);
        if let Ok(files) = &record.joined {
            assert_accepted(files, &what);
        }
    }
    let tally = Tally::of(records.iter().map(JoinRecord::number));
    let all = records.len();
    assert_eq!(tally.count(0), 112);
    println!("gate: {all} join records agree, {short} times short");
}

#[test]
fn generated_halves_are_joined_alike() {
    let (count, seed) = (setting("GATE_JOINS", 3_000), setting("GATE_SEED", 1));
    let mut lent = LentFiles::default();
    let mut numbers = Vec::new();
    let mut short = 0;
    for (index, record) in generate::joins(seed).take(count as usize).enumerate() {
        let what = format!("halves {index} of seed {seed}");
        assert_joined(&record, &mut lent, &what);
        short += assert_rooms(&record, &mut lent, &what);
        if let Ok(files) = &record.joined {
            assert_accepted(files, &what);
        }
        numbers.push(record.number());
    }
    let tally = Tally::of(numbers.into_iter());
    println!("{tally}short      {short:8}");
    assert!(
        tally.count(0) * 3 >= tally.total(),
        "few joined in\n{tally}"
    );
    for number in [10, 11, 13, 14, 20, 30, 31, 33, 34, 35, 36, 37, 71, 73, 74] {
        let seen = tally.count(number) > 0;
        assert!(seen || count < 3_000, "no refusal {number} in\n{tally}");
    }
}

/// With what the reference makes of them.
fn judged(first: &Files, second: &Files, entry: u16) -> JoinRecord {
    JoinRecord {
        joined: first.join(second, entry),
        first: first.clone(),
        second: second.clone(),
        entry,
    }
}

fn files(entries: &[Entry], members: &[u16], nodes: &[DraftNode]) -> Files {
    Files {
        claim: draft::claim(entries, members).bytes,
        proof: draft::proof(nodes).bytes,
    }
}

/// `p` with `nu X. box X and not p`, at entry 5: a tree with a loop, and an axiom.
fn small() -> [Files; 2] {
    let e = |kind, a, b| Entry::new(kind, a, b);
    let table = [
        e(Kind::Name, 2, 0),
        e(Kind::Box, 0, 0),
        e(Kind::Nu, 1, 0),
        e(Kind::Letter, 0, 0),
        e(Kind::Negated, 0, 0),
        e(Kind::And, 2, 4),
    ];
    let n = |rule, principal, child, back, codes: &[u16]| DraftNode {
        first: child,
        back,
        ..DraftNode::new(rule, principal, codes.to_vec())
    };
    let tree = [
        n(Rule::W, 7, 1, 0, &[5, 7]),
        n(Rule::D, 0, 2, 0, &[5]),
        n(Rule::Nu, 5, 3, 0, &[5]),
        n(Rule::Box, 3, 4, 0, &[3]),
        n(Rule::Back, 0, 0, 1, &[5]),
    ];
    let axiom = [n(Rule::Ax1, 0, 0, 0, &[7, 9])];
    [
        files(&table, &[2, 3], &tree),
        files(&table, &[3, 4], &axiom),
    ]
}

#[test]
fn every_entry_number() {
    let mut lent = LentFiles::default();
    let [first, second] = small();
    for entry in 0..=u16::MAX {
        let record = judged(&first, &second, entry);
        assert_eq!(record.joined.is_ok(), entry == 5);
        let what = format!("entry {entry}");
        assert_in(&record, LentFiles::ROOM, &record.joined, &mut lent, &what);
    }
}

#[test]
fn slices_of_every_length() {
    let mut lent = LentFiles::default();
    let [first, second] = small();
    let record = judged(&first, &second, 5);
    let Lengths { claim, proof } = lengths(&record.joined).expect("joined");
    for claim_room in 0..claim + 3 {
        for proof_room in 0..proof + 3 {
            let room = Lengths {
                claim: claim_room,
                proof: proof_room,
            };
            let expected = match claim_room < claim || proof_room < proof {
                true => &Err(SHORT),
                false => &record.joined,
            };
            assert_in(&record, room, expected, &mut lent, "small halves");
        }
    }
}

/// The files of a record, in the order in which they are judged.
fn each_file(record: &mut JoinRecord) -> [&mut Vec<u8>; 4] {
    let JoinRecord { first, second, .. } = record;
    [
        &mut first.claim,
        &mut first.proof,
        &mut second.claim,
        &mut second.proof,
    ]
}

/// The small halves with one file changed, and what the reference makes of them.
fn changed(at: usize, change: impl Fn(&mut Vec<u8>)) -> JoinRecord {
    let [first, second] = small();
    let mut record = judged(&first, &second, 5);
    change(each_file(&mut record)[at]);
    judged(&record.first, &record.second, 5)
}

fn small_lengths() -> [usize; 4] {
    let [first, second] = small();
    each_file(&mut judged(&first, &second, 5)).map(|file| file.len())
}

#[test]
fn every_byte_of_each_file() {
    let mut lent = LentFiles::default();
    let mut numbers = Vec::new();
    for (at, length) in small_lengths().into_iter().enumerate() {
        for place in 0..length {
            for byte in 0..=u8::MAX {
                let record = changed(at, |file| file[place] = byte);
                let what = format!("file {at}, byte {place} is {byte}");
                assert_in(&record, LentFiles::ROOM, &record.joined, &mut lent, &what);
                numbers.push(record.number());
            }
        }
    }
    let tally = Tally::of(numbers.into_iter());
    for number in [
        0, 10, 11, 12, 13, 14, 20, 30, 31, 32, 33, 34, 35, 36, 37, 38, 73,
    ] {
        assert!(tally.count(number) > 0, "no {number} in\n{tally}");
    }
}

#[test]
fn each_file_cut_and_lengthened() {
    let mut lent = LentFiles::default();
    for (at, length) in small_lengths().into_iter().enumerate() {
        for longer in 0..length + 3 {
            let record = changed(at, |file| file.resize(longer, 0));
            assert_eq!(record.joined.is_ok(), longer == length);
            assert_joined(&record, &mut lent, &format!("file {at} of {longer} bytes"));
        }
    }
}

/// "LIN1 and CLM2 are 10 here for ever, PRF2 is 30."
#[test]
fn other_openings() {
    let mut lent = LentFiles::default();
    for (at, opening, number) in [
        (0, b"CLM2", 10),
        (0, b"LIN1", 10),
        (1, b"PRF2", 30),
        (2, b"CLM2", 10),
        (2, b"LIN1", 10),
        (3, b"PRF2", 30),
    ] {
        let record = changed(at, |file| file[..4].copy_from_slice(opening));
        assert_eq!(record.number(), number);
        assert_joined(&record, &mut lent, &format!("file {at}: {opening:?}"));
    }
}

/// Both halves may be one and the same pair of blocks.
#[test]
fn one_pair_as_both_halves() {
    let mut lent = LentFiles::default();
    let table = [Entry::new(Kind::True, 0, 0), Entry::new(Kind::And, 0, 0)];
    let half = files(&table, &[0], &[DraftNode::new(Rule::Ax2, 0, vec![1])]);
    let expected = half.join(&half, 1).expect("joined");
    let got = join(1, &half, &half, &mut lent.lend(expected.lengths()));
    assert_eq!(shown(got), shown(joined(Ok(expected.lengths()))));
    lent.assert_holds(&expected.claim, &expected.proof, "one pair");
    assert_accepted(&expected, "one pair");
}

/// 1,024 nodes and 1,025, however they are shared out, in columns of every size.
#[test]
fn as_many_nodes_as_there_may_be() {
    let mut lent = LentFiles::default();
    for first in [1, 2, 31, 32, 33, 127, 128, 129, 511, 512, 900, 1000, 1021] {
        for (whole, number) in [(1024, 0), (1025, 74)] {
            let nodes = [first, whole - 1 - first];
            let (entry, [one, other]) = extremes::halves(3, 0, nodes);
            let record = judged(&one, &other, entry);
            assert_eq!(record.number(), number);
            let what = format!("{nodes:?} nodes");
            assert_joined(&record, &mut lent, &what);
            assert_rooms(&record, &mut lent, &what);
        }
    }
    for nodes in [[1024, 2], [1024, 1024], [2, 1024], [1023, 1024]] {
        let (entry, [one, other]) = extremes::halves(3, 0, nodes);
        let record = judged(&one, &other, entry);
        assert_eq!(record.number(), 74);
        assert_joined(&record, &mut lent, &format!("{nodes:?} nodes"));
    }
}

/// A rest of every length, and the longest files.
#[test]
fn as_many_members_as_there_may_be() {
    let mut lent = LentFiles::default();
    for rest in 0..=24 {
        for entries in [3 + rest, 255, 256] {
            let (entry, [one, other]) = extremes::halves(entries, rest, [40, 70]);
            let record = judged(&one, &other, entry);
            assert_eq!(record.joined.is_ok(), rest < 24);
            let what = format!("{rest} of {entries} entries");
            assert_joined(&record, &mut lent, &what);
            assert_rooms(&record, &mut lent, &what);
        }
    }
    let (entry, [one, other]) = extremes::halves(256, 23, [511, 512]);
    let record = judged(&one, &other, entry);
    let files = record.joined.as_ref().expect("joined");
    assert_accepted(files, "the longest files");
    assert_rooms(&record, &mut lent, "the longest files");
    let Lengths { claim, proof } = files.lengths();
    println!("gate: joined files of {claim} and {proof} bytes");
}

/// 73 before 74 before 70, and a bad file before all.
#[test]
fn refusals_in_their_order() {
    let mut lent = LentFiles::default();
    let (entry, [one, mut other]) = extremes::halves(3, 0, [1024, 1024]);
    let answer = |record: &JoinRecord, lent: &mut LentFiles| {
        assert_in(record, NOTHING, &record.joined, lent, "in order");
        record.number()
    };
    assert_eq!(answer(&judged(&one, &other, entry), &mut lent), 74);
    assert_eq!(answer(&judged(&one, &other, 0), &mut lent), 73);
    assert_eq!(answer(&judged(&one, &other, 65_535), &mut lent), 73);
    other.proof.pop();
    assert_eq!(answer(&judged(&one, &other, 65_535), &mut lent), 31);
    other.claim.clear();
    assert_eq!(answer(&judged(&one, &other, 65_535), &mut lent), 10);
    let proof = [&one.proof[..], &[0]].concat();
    let one = Files { proof, ..one };
    assert_eq!(answer(&judged(&one, &other, 65_535), &mut lent), 31);
}
