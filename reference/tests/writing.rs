//! The writer: what it lays down, what it refuses, and that it says what the
//! reader says of the file that the records stand for.

use reference::corpus::WriteRecord;
use reference::generate::{self, Empty, Tally};
use reference::{
    check, judge, write_claim, write_proof, written, Claim, ClaimRecords, Decoded, EntryRecord,
    Kind, NodeRecord, ProofRecords, Records, Refusal, Rule,
};

fn refusal<T>(number: u16, place: u32) -> Result<T, Refusal> {
    Err(Refusal { number, place })
}

fn entry(kind: Kind, a: u16, b: u16) -> EntryRecord {
    let kind = kind as u8;
    EntryRecord { kind, a, b }
}

fn node(rule: Rule, [principal, first, second, back]: [u16; 4], count: u8) -> NodeRecord {
    NodeRecord {
        rule: rule as u8,
        principal,
        first,
        second,
        back,
        count,
    }
}

/// The records of one goal in slices of the least lengths.
fn lent(entries: &[EntryRecord], members: &[u16], nodes: &[NodeRecord], codes: &[u16]) -> Records {
    filled_up(Records {
        form: 1,
        entries: entries.to_vec(),
        entry_count: entries.len(),
        goal_counts: vec![members.len() as u16],
        members: members.to_vec(),
        nodes: nodes.to_vec(),
        node_count: nodes.len(),
        roots: Vec::new(),
        codes: codes.to_vec(),
    })
}

fn filled_up(mut records: Records) -> Records {
    let unlike = entry(Kind::Name, 0xffff, 0xffff);
    let length = records.entries.len().max(256);
    records.entries.resize(length, unlike);
    let unlike = node(Rule::And, [0xffff; 4], 0xff);
    let length = records.nodes.len().max(1024);
    records.nodes.resize(length, unlike);
    let length = records.codes.len().max(24_576);
    records.codes.resize(length, 0xffff);
    records
}

/// Nu of box, the first sample of the specification.
fn nu_of_box() -> Records {
    lent(
        &[
            entry(Kind::Name, 2, 0),
            entry(Kind::Box, 0, 0),
            entry(Kind::Nu, 1, 0),
        ],
        &[2],
        &[
            node(Rule::D, [0, 1, 0, 0], 1),
            node(Rule::Nu, [5, 2, 0, 0], 1),
            node(Rule::Box, [3, 3, 0, 0], 1),
            node(Rule::Back, [0, 0, 0, 0], 1),
        ],
        &[5, 5, 3, 5],
    )
}

const CLAIM: &[u8] = b"CLM1\x03\0\x01\x0a\x02\0\x01\x07\0\0\x01\x09\x01\0\x01\0\x02\0";
const PROOF: &[u8] = b"PRF1\x04\0\x12\x0a\x01\0\x01\x05\0\x13\x06\x05\0\x02\0\x01\x05\0\
                       \x13\x04\x03\0\x03\0\x01\x03\0\x18\x0b\0\0\x01\x05\0";

#[test]
fn nu_of_box_is_laid_down() {
    assert_eq!(nu_of_box().write_claim(), Ok(CLAIM.to_vec()));
    assert_eq!(nu_of_box().write_proof(), Ok(PROOF.to_vec()));
    assert_eq!(check(CLAIM, PROOF), 0);
}

#[test]
fn an_answer_is_a_length_or_a_refusal() {
    assert_eq!(written(Ok(38)), 38);
    let answer = written(refusal(32, 12));
    assert_eq!(answer, (1 << 32) + 32 * 65_536 + 12);
}

/// Both calls with changed records, the claim's refusal being the proof's too.
fn assert_refused(change: impl Fn(&mut Records), number: u16, place: u32) {
    assert_changed(nu_of_box(), change, number, place);
}

fn assert_changed(good: Records, change: impl Fn(&mut Records), number: u16, place: u32) {
    let mut records = good.clone();
    change(&mut records);
    let expected = refusal(number, place);
    if !(30..=70).contains(&number) {
        assert_eq!(records.write_claim(), expected);
    } else {
        assert_eq!(records.write_claim(), good.write_claim());
    }
    assert_eq!(records.write_proof(), expected);
}

/// One goal of these members.
fn with_members(records: &mut Records, members: &[u16]) {
    records.members = members.to_vec();
    records.goal_counts = vec![members.len() as u16];
}

#[test]
fn counts_of_any_size() {
    for count in [0, 257, 65_536 + 3, usize::MAX, (1 << 32) + 3] {
        assert_refused(|records| records.entry_count = count, 12, 4);
    }
    for count in [0, 1025, 65_536 + 4, usize::MAX, (1 << 32) + 4] {
        assert_refused(|records| records.node_count = count, 32, 4);
    }
    for count in [0, 25, 65_537] {
        assert_refused(|records| with_members(records, &vec![2; count]), 12, 18);
    }
    for count in [25, 255] {
        assert_refused(|records| records.nodes[1].count = count, 32, 19);
    }
}

#[test]
fn unfit_maps_and_members() {
    assert_refused(|records| records.entries[1].kind = 11, 13, 10);
    assert_refused(|records| records.entries[2].b = 1, 13, 14);
    assert_refused(|records| records.members[0] = 0, 14, 20);
    assert_refused(|records| records.members[0] = 3, 14, 20);
    assert_refused(|records| with_members(records, &[2, 2]), 14, 22);
    assert_refused(|records| records.nodes[0].rule = 12, 33, 6);
    assert_refused(|records| records.nodes[0].principal = 5, 33, 6);
    assert_refused(|records| records.nodes[1].second = 3, 33, 13);
    assert_refused(|records| records.nodes[1].back = 1, 33, 13);
    assert_refused(|records| records.nodes[3].first = 1, 33, 31);
    assert_refused(|records| records.codes[0] = 1, 34, 11);
    assert_refused(|records| records.codes[3] = 6, 34, 36);
}

#[test]
fn tables_and_trees() {
    assert_refused(|records| records.entries[0].a = 1, 20, 0);
    let diamond = |records: &mut Records| {
        records.entries[3] = entry(Kind::Diamond, 0, 0);
        records.entry_count = 4;
    };
    assert_refused(diamond, 21, 3);
    assert_refused(|records| records.entries[1].kind = 8, 22, 1);
    assert_refused(|records| records.entries[2].a = 0, 23, 2);
    assert_refused(|records| records.nodes[2].first = 2, 35, 2);
    assert_refused(|records| records.node_count = 3, 35, 2);
    assert_refused(|records| records.nodes[2].first = 1, 35, 2);
    let orphan = |records: &mut Records| {
        records.nodes[2] = node(Rule::Ax2, [0; 4], 1);
    };
    assert_refused(orphan, 35, 3);
}

/// "B above 15 is 71", after 20 at the same entry; "B other than 0 with another
/// kind still 13".
#[test]
fn actions() {
    for action in [16, 17, 255, 256, 65_535] {
        assert_refused(|records| records.entries[1].b = action, 71, 1);
        let both = |records: &mut Records| {
            records.entries[1].b = action;
            records.entries[1].a = 1;
        };
        assert_refused(both, 20, 1);
        assert_refused(|records| records.entries[2].b = action, 13, 14);
    }
    let later = |records: &mut Records| {
        records.entries[1].b = 16;
        records.entries[2].a = 2;
    };
    assert_refused(later, 71, 1);
    let earlier = |records: &mut Records| {
        records.entries[1].b = 16;
        records.entries[0].a = 1;
    };
    assert_refused(earlier, 20, 0);
    let unguarded = |records: &mut Records| {
        records.entries[1].b = 16;
        records.entries[2].a = 0;
    };
    assert_refused(unguarded, 71, 1);
}

/// "map 1 means action 0": the writer never writes a 0 out.
#[test]
fn actions_are_laid_down_as_they_must_be_read() {
    for action in 0..=15 {
        for kind in [Kind::Diamond, Kind::Box] {
            let mut records = nu_of_box();
            records.entries[1] = entry(kind, 0, action);
            let claim = records.write_claim().expect("a claim");
            let boxed = match action {
                0 => vec![1, kind as u8, 0, 0],
                _ => vec![3, kind as u8, 0, 0, action as u8, 0],
            };
            let expected = [&CLAIM[..10], &boxed, &CLAIM[14..]].concat();
            assert_eq!(claim, expected);
            let proof = records.write_proof().expect("a proof");
            assert_gives_back(&records, &claim, &proof);
        }
    }
}

/// The claim's records come before the proof's own.
#[test]
fn the_claim_is_judged_first() {
    let both = |records: &mut Records| {
        records.node_count = 0;
        records.entries[0].a = 1;
    };
    assert_refused(both, 20, 0);
}

fn without_last<T>(list: &[T]) -> &[T] {
    &list[..list.len() - 1]
}

/// "Refusal 1 comes first", 70 is "judged after the records", and no refusal
/// writes a byte.
#[test]
fn short_slices() {
    let good = nu_of_box();
    let mut bad = nu_of_box();
    bad.entry_count = 0;
    for records in [&good, &bad] {
        let (claim, proof) = (records.claim(), records.proof());
        let entries = without_last(claim.entries);
        let short = ClaimRecords { entries, ..claim };
        let mut out = [7; 100];
        assert_eq!(write_claim(short, &mut out), refusal(1, 0));
        assert_eq!(write_proof(short, proof, &mut out), refusal(1, 0));
        let nodes = without_last(proof.nodes);
        let short = ProofRecords { nodes, ..proof };
        assert_eq!(write_proof(claim, short, &mut out), refusal(1, 0));
        let codes = without_last(proof.codes);
        let short = ProofRecords { codes, ..proof };
        assert_eq!(write_proof(claim, short, &mut out), refusal(1, 0));
        assert_eq!(out, [7; 100]);
    }
    let mut out = [7; 100];
    for length in 0..CLAIM.len() {
        let got = write_claim(good.claim(), &mut out[..length]);
        assert_eq!(got, refusal(70, 0));
    }
    for length in 0..PROOF.len() {
        let got = write_proof(good.claim(), good.proof(), &mut out[..length]);
        assert_eq!(got, refusal(70, 0));
    }
    assert_eq!(write_claim(bad.claim(), &mut []), refusal(12, 4));
    assert_eq!(out, [7; 100]);
}

#[test]
fn bytes_beyond_the_end_are_untouched() {
    let records = nu_of_box();
    let mut out = [7; 100];
    let length = write_proof(records.claim(), records.proof(), &mut out);
    assert_eq!(length, Ok(PROOF.len()));
    assert_eq!(out[..], [PROOF, &[7].repeat(100 - PROOF.len())].concat());
    let length = write_claim(records.claim(), &mut out[..CLAIM.len()]);
    assert_eq!(length, Ok(CLAIM.len()));
    assert_eq!(out[..PROOF.len()], [CLAIM, &PROOF[CLAIM.len()..]].concat());
}

/// 256 entries, the first of which has no operands below it, and 24 members; then
/// 1,024 nodes of 24 codes.
fn largest() -> Records {
    let mut entries = vec![entry(Kind::Letter, 31, 0)];
    entries.resize(200, entry(Kind::Or, 0, 0));
    entries.resize(256, entry(Kind::Box, 0, 15));
    let members: Vec<u16> = (232..256).collect();
    let mut nodes: Vec<_> = (1..1024)
        .map(|child| node(Rule::W, [9, child, 0, 0], 24))
        .collect();
    nodes.push(node(Rule::Back, [0, 0, 0, 1023], 24));
    let codes: Vec<u16> = (488..512).collect();
    lent(&entries, &members, &nodes, &codes.repeat(1024))
}

#[test]
fn the_longest_files() {
    let records = largest();
    let (claim, proof) = (records.write_claim(), records.write_proof());
    let (claim, proof) = (claim.expect("a claim"), proof.expect("a proof"));
    assert_eq!((claim.len(), proof.len()), (1590, 56_324));
    assert_gives_back(&records, &claim, &proof);
}

/// The same with those members in each of 16 goals, and the last nodes in trees of
/// their own.
#[test]
fn the_longest_files_of_several_goals() {
    let mut records = largest();
    records.form = 2;
    records.goal_counts = vec![24; 16];
    records.members = records.members.repeat(16);
    records.roots = std::iter::once(0).chain(1009..1024).collect();
    records.nodes[1008..1024].fill(node(Rule::Back, [0, 0, 0, 1023], 24));
    let (claim, proof) = (records.write_claim(), records.write_proof());
    let (claim, proof) = (claim.expect("a claim"), proof.expect("a proof"));
    assert_eq!((claim.len(), proof.len()), (2342, 56_326));
    assert_gives_back(&records, &claim, &proof);
}

/// The first sample and beside it, of the same table, a letter and its negation: two
/// goals, whose trees interleave.
fn two_goals() -> Records {
    let Records {
        mut entries,
        members,
        mut nodes,
        mut codes,
        ..
    } = nu_of_box();
    entries[3] = entry(Kind::Letter, 0, 0);
    entries[4] = entry(Kind::Negated, 0, 0);
    nodes[1].first = 3;
    nodes[2].first = 4;
    nodes.insert(2, node(Rule::Ax1, [0; 4], 2));
    codes.splice(2..2, [7, 9]);
    Records {
        form: 2,
        entries,
        entry_count: 5,
        goal_counts: vec![1, 2],
        members: [&members[..], &[3, 4]].concat(),
        nodes,
        node_count: 5,
        roots: vec![0, 2],
        codes,
    }
}

const GOAL_CLAIM: &[u8] =
    b"CLM2\x05\0\x01\x0a\x02\0\x01\x07\0\0\x01\x09\x01\0\x01\x02\0\0\x01\x03\0\0\
                            \x02\0\x01\0\x02\0\x02\0\x03\0\x04\0";
const GOAL_PROOF: &[u8] = b"PRF2\x05\0\0\0\x02\0\x12\x0a\x01\0\x01\x05\0\x13\x06\x05\0\x03\0\x01\x05\0\
                            \x10\0\x02\x07\0\x09\0\x13\x04\x03\0\x04\0\x01\x03\0\x18\x0b\0\0\x01\x05\0";

#[test]
fn two_goals_are_laid_down() {
    assert_eq!(two_goals().write_claim(), Ok(GOAL_CLAIM.to_vec()));
    assert_eq!(two_goals().write_proof(), Ok(GOAL_PROOF.to_vec()));
    assert_eq!(check(GOAL_CLAIM, GOAL_PROOF), 0);
    assert_gives_back(&two_goals(), GOAL_CLAIM, GOAL_PROOF);
}

/// The two goals with changed records. Their goal count stands at 26, their members
/// from 28 on, their roots at 6.
fn assert_refused_of_two(change: impl Fn(&mut Records), number: u16, place: u32) {
    assert_changed(two_goals(), change, number, place);
}

/// "A number that is no form: 10 at 0, after 1, in both calls."
#[test]
fn no_form() {
    for form in (0..=255).filter(|form| ![1, 2].contains(form)) {
        assert_refused(|records| records.form = form, 10, 0);
        let bad = |records: &mut Records| {
            records.form = form;
            records.entry_count = 0;
        };
        assert_refused_of_two(bad, 10, 0);
        let records = Records {
            form,
            ..two_goals()
        };
        let short = &records.codes[..24_575];
        let proof = ProofRecords {
            codes: short,
            ..records.proof()
        };
        let mut out = [7; 100];
        assert_eq!(write_proof(records.claim(), proof, &mut out), refusal(1, 0));
        assert_eq!(out, [7; 100]);
    }
}

/// 72, "then the sum (12 at the goal count), then list by list".
#[test]
fn goal_counts() {
    let counts = |counts: &[u16]| {
        let counts = counts.to_vec();
        move |records: &mut Records| records.goal_counts = counts.clone()
    };
    assert_refused_of_two(counts(&[0; 17]), 72, 26);
    assert_refused_of_two(counts(&[1; 17]), 72, 26);
    assert_refused_of_two(counts(&[0; 65_538]), 72, 26);
    // T-06: no goals are good, and add up to no members.
    assert_refused_of_two(counts(&[]), 12, 26);
    assert_refused_of_two(counts(&[1, 1]), 12, 26);
    assert_refused_of_two(counts(&[1, 3]), 12, 26);
    assert_refused_of_two(counts(&[2]), 12, 26);
    assert_refused_of_two(counts(&[1, 2, 1]), 12, 26);
    // "32,768 + 32,768 is not 0"
    assert_refused_of_two(counts(&[32_769, 32_770]), 12, 26);
    assert_refused_of_two(counts(&[1, 2, 32_768, 32_768]), 12, 26);
    // They add up, and one is 0.
    assert_refused_of_two(counts(&[0, 3]), 12, 28);
    assert_refused_of_two(counts(&[3, 0]), 12, 36);
    assert_refused_of_two(counts(&[1, 2, 0]), 12, 38);
    let many = |records: &mut Records| {
        records.goal_counts = vec![1, 25];
        records.members.resize(26, 4);
    };
    assert_refused_of_two(many, 12, 32);
    assert_refused_of_two(|records| records.members[1] = 4, 14, 36);
    assert_refused_of_two(|records| records.members[2] = 5, 14, 36);
    assert_refused_of_two(|records| records.members[0] = 0, 14, 30);
    // A list rises for itself.
    let falling = |records: &mut Records| records.members = vec![4, 2, 3];
    let mut records = two_goals();
    falling(&mut records);
    assert!(records.write_claim().is_ok());
    // Entries come before, 20 to 23 and 71 after.
    let before = |records: &mut Records| {
        records.goal_counts.clear();
        records.entries[3].b = 1;
    };
    assert_refused_of_two(before, 13, 18);
    let after = |records: &mut Records| {
        records.goal_counts = vec![1, 1];
        records.entries[3].a = 32;
    };
    assert_refused_of_two(after, 12, 26);
}

/// "node count (32 at 4), length of the roots (34 at 6), each root, then the nodes"
#[test]
fn roots() {
    let roots = |roots: &[u16]| {
        let roots = roots.to_vec();
        move |records: &mut Records| records.roots = roots.clone()
    };
    for wrong in [&[][..], &[0], &[0, 2, 4], &[7; 65_538]] {
        assert_refused_of_two(roots(wrong), 34, 6);
        for nodes in [1025, usize::MAX] {
            let many_nodes = |records: &mut Records| {
                roots(wrong)(records);
                records.node_count = nodes;
            };
            assert_refused_of_two(many_nodes, 32, 4);
        }
        let unfit = |records: &mut Records| {
            roots(wrong)(records);
            records.nodes[0].rule = 12;
        };
        assert_refused_of_two(unfit, 34, 6);
    }
    // T-06: zero nodes are good, and no root is one of them.
    assert_refused_of_two(|records| records.node_count = 0, 34, 6);
    assert_refused_of_two(roots(&[0, 0]), 34, 8);
    assert_refused_of_two(roots(&[2, 0]), 34, 8);
    assert_refused_of_two(roots(&[0, 5]), 34, 8);
    assert_refused_of_two(roots(&[0, 65_535]), 34, 8);
    assert_refused_of_two(roots(&[5, 6]), 34, 6);
    assert_refused_of_two(roots(&[1, 2]), 35, 0);
    assert_refused_of_two(roots(&[0, 3]), 35, 1);
    assert_refused_of_two(|records| records.nodes[1].first = 2, 35, 1);
    assert_refused_of_two(|records| records.nodes[0].rule = 12, 33, 10);
}

/// "Forms with one goal: the goal count slice is one number, the length of the
/// members' slice, and there are no roots."
#[test]
fn one_goal_has_one_count_and_no_roots() {
    for counts in [&[][..], &[0], &[2], &[1, 0], &[0, 1], &[1, 1], &[1; 17]] {
        assert_refused(|records| records.goal_counts = counts.to_vec(), 12, 18);
    }
    for roots in [&[0][..], &[0, 1], &[1], &[9; 20]] {
        assert_refused(|records| records.roots = roots.to_vec(), 34, 6);
        let no_nodes = |records: &mut Records| {
            records.roots = roots.to_vec();
            records.node_count = 0;
        };
        assert_refused(no_nodes, 32, 4);
    }
}

/// No entries, no goals and no nodes, of the form that may have none.
fn nothing() -> Records {
    Records {
        form: 2,
        goal_counts: Vec::new(),
        ..lent(&[], &[], &[], &[])
    }
}

const EMPTY_CLAIM: &[u8] = b"CLM2\0\0\0\0";
const EMPTY_PROOF: &[u8] = b"PRF2\0\0";

#[test]
fn nothing_is_laid_down() {
    assert_eq!(nothing().write_claim(), Ok(EMPTY_CLAIM.to_vec()));
    assert_eq!(nothing().write_proof(), Ok(EMPTY_PROOF.to_vec()));
    assert_eq!(check(EMPTY_CLAIM, EMPTY_PROOF), 0);
    assert_gives_back(&nothing(), EMPTY_CLAIM, EMPTY_PROOF);
    // With entries, and no goals over them.
    let mut records = two_goals();
    records.goal_counts.clear();
    records.members.clear();
    records.roots.clear();
    records.node_count = 0;
    let claim = [&GOAL_CLAIM[..26], &[0, 0]].concat();
    assert_eq!(records.write_claim(), Ok(claim.clone()));
    assert_eq!(records.write_proof(), Ok(EMPTY_PROOF.to_vec()));
    assert_eq!(check(&claim, EMPTY_PROOF), 0);
}

/// "Refusal 1 comes first", 70 last, and in between nothing is too short.
#[test]
fn nothing_in_short_slices() {
    let records = nothing();
    let (claim, proof) = (records.claim(), records.proof());
    let mut out = [7; 20];
    let entries = without_last(claim.entries);
    let short = ClaimRecords { entries, ..claim };
    assert_eq!(write_claim(short, &mut out), refusal(1, 0));
    assert_eq!(write_proof(short, proof, &mut out), refusal(1, 0));
    let nodes = without_last(proof.nodes);
    let short = ProofRecords { nodes, ..proof };
    assert_eq!(write_proof(claim, short, &mut out), refusal(1, 0));
    for length in 0..EMPTY_CLAIM.len() {
        let got = write_claim(claim, &mut out[..length]);
        assert_eq!(got, refusal(70, 0));
    }
    for length in 0..EMPTY_PROOF.len() {
        let got = write_proof(claim, proof, &mut out[..length]);
        assert_eq!(got, refusal(70, 0));
    }
    assert_eq!(out, [7; 20]);
    assert_eq!(write_claim(claim, &mut out[..8]), Ok(8));
    assert_eq!(out[..], [EMPTY_CLAIM, &[7; 12]].concat());
    assert_eq!(write_proof(claim, proof, &mut out[..6]), Ok(6));
    assert_eq!(out[..], [EMPTY_PROOF, b"\0\0", &[7; 12]].concat());
}

/// Nothing but for one thing: the number and place that the reader would give.
fn assert_refused_of_nothing(change: fn(&mut Records), number: u16, place: u32) {
    assert_changed(nothing(), change, number, place);
}

#[test]
fn a_claim_of_little() {
    let refused = assert_refused_of_nothing;
    refused(|records| records.form = 1, 12, 4);
    refused(|records| records.form = 3, 10, 0);
    refused(|records| records.entry_count = 257, 12, 4);
    refused(|records| records.entry_count = 1 << 32, 12, 4);
    // What stands beyond the count of zero was not to be read.
    refused(|records| records.entry_count = 1, 13, 6);
    refused(|records| records.goal_counts = vec![0; 17], 72, 6);
    refused(|records| records.members = vec![0], 12, 6);
    refused(|records| records.members = vec![0; 65_536], 12, 6);
    refused(|records| records.goal_counts = vec![0], 12, 8);
    refused(|records| records.goal_counts = vec![1], 12, 6);
    let goal = |records: &mut Records| {
        records.goal_counts = vec![1];
        records.members = vec![0];
    };
    refused(goal, 14, 10);
}

#[test]
fn a_proof_of_little() {
    let refused = assert_refused_of_nothing;
    refused(|records| records.roots = vec![0], 34, 6);
    refused(|records| records.roots = vec![0; 65_536], 34, 6);
    refused(|records| records.node_count = 1025, 32, 4);
    refused(|records| records.node_count = 1 << 32, 32, 4);
    refused(|records| records.node_count = 1, 33, 6);
    let leaf = |records: &mut Records| {
        records.nodes[0] = node(Rule::Ax2, [0; 4], 0);
        records.node_count = 1;
    };
    refused(leaf, 35, 0);
    let path = |records: &mut Records| {
        records.nodes[0] = node(Rule::D, [0, 1, 0, 0], 0);
        records.nodes[1] = node(Rule::D, [0, 1, 0, 0], 0);
        records.node_count = 2;
    };
    refused(path, 35, 1);
    let code = |records: &mut Records| {
        records.nodes[0] = node(Rule::Ax2, [0; 4], 1);
        records.codes[0] = 0;
        records.node_count = 1;
    };
    refused(code, 34, 9);
}

/// "Reading a written file must give the records back".
fn assert_gives_back(records: &Records, claim: &[u8], proof: &[u8]) {
    let decoded = judge(claim, proof).decoded;
    let decoded = decoded.expect("what is written is well formed");
    assert!(begin_with(records, &records_of(&decoded)));
}

fn records_of(Decoded { claim, proof }: &Decoded) -> Records {
    let entries = claim.entries.iter().copied();
    let nodes = proof.nodes.iter().copied();
    Records {
        form: claim.form as u8,
        entries: entries.map(EntryRecord::from).collect(),
        entry_count: claim.entries.len(),
        goal_counts: claim.goals().map(|goal| goal.len() as u16).collect(),
        members: claim.members.clone(),
        nodes: nodes.map(NodeRecord::from).collect(),
        node_count: proof.nodes.len(),
        roots: proof.named_roots.clone(),
        codes: proof.codes.clone(),
    }
}

/// Whether what was read are the lent records up to the counts.
fn begin_with(lent: &Records, read: &Records) -> bool {
    lent.form == read.form
        && lent.entry_count == read.entry_count
        && lent.entries.starts_with(&read.entries)
        && lent.goal_counts == read.goal_counts
        && lent.members == read.members
        && lent.node_count == read.node_count
        && lent.nodes.starts_with(&read.nodes)
        && lent.roots == read.roots
        && lent.codes.starts_with(&read.codes)
}

#[test]
fn the_same_seed_gives_the_same_records() {
    let writes = |seed| generate::writes(seed).take(20).collect::<Vec<_>>();
    assert!(writes(3) == writes(3));
    assert!(writes(3) != writes(4));
}

#[test]
fn every_outcome_of_writing_occurs() {
    let number = |outcome: Result<Vec<u8>, Refusal>| {
        outcome.err().map_or(0, |refusal| refusal.number.into())
    };
    let writes = generate::writes(1).take(10_000);
    let (claims, proofs): (Vec<u32>, Vec<u32>) = writes
        .map(|record| (number(record.claim), number(record.proof)))
        .unzip();
    let (claims, proofs) = (Tally::of(claims.into_iter()), Tally::of(proofs.into_iter()));
    println!("{claims}\n{proofs}");
    let of_claims = [10, 12, 13, 14, 20, 21, 22, 23, 71, 72];
    for number in of_claims {
        assert!(claims.count(number) > 0, "no refusal {number} in\n{claims}");
    }
    for number in of_claims.into_iter().chain(32..=35) {
        assert!(proofs.count(number) > 0, "no refusal {number} in\n{proofs}");
    }
    assert!(proofs.count(0) * 4 > proofs.total(), "few in\n{proofs}");
}

/// One in twenty at the least lacks entries, goals or nodes.
#[test]
fn records_that_lack_entries_goals_or_nodes() {
    let mut found = Empty::ALL.map(|empty| (empty, 0, 0));
    for record in generate::writes(6).take(10_000) {
        let lacks = Empty::of_records(&record.records);
        for (empty, count, written) in &mut found {
            let same = lacks == Some(*empty);
            *count += usize::from(same);
            *written += usize::from(same && record.claim.is_ok() && record.proof.is_ok());
        }
    }
    println!("of 10000 these lack something, and so many are written: {found:?}");
    for (empty, count, written) in found {
        let good = matches!(empty, Empty::Everything | Empty::GoalsAndNodes);
        assert!(count > 30, "few of {empty:?}");
        assert_eq!(written > 20, good, "{empty:?}");
        assert!(good || written == 0, "{empty:?}");
    }
    assert!(found.iter().map(|(_, count, _)| count).sum::<usize>() * 20 > 10_000);
}

#[test]
fn written_files_give_the_records_back() {
    let (mut files, mut several) = (0, 0);
    for record in generate::writes(2).take(5000) {
        let WriteRecord { records, .. } = &record;
        let Ok(claim) = &record.claim else {
            continue;
        };
        let read = Claim::read(claim).expect("what is written is well formed");
        assert_eq!(read.members, records.members);
        let counts: Vec<u16> = read.goals().map(|goal| goal.len() as u16).collect();
        assert_eq!(counts, records.goal_counts);
        if let Ok(proof) = &record.proof {
            assert_gives_back(records, claim, proof);
            files += 1;
            several += usize::from(records.roots.len() > 1);
        }
    }
    assert!(
        files > 1000 && several > 300,
        "only {files} proofs are written, {several} of several goals"
    );
}

/// "writing the records of an accepted file must give its bytes back", and so for
/// every well-formed one.
#[test]
fn records_of_files_give_the_bytes_back() {
    let mut files = 0;
    for record in generate::checks(12).take(5000) {
        let judged = judge(&record.claim, &record.proof);
        if !matches!(judged.answer() >> 16, 0 | 36..=39) {
            continue;
        }
        let read = records_of(&judged.decoded.expect("well formed"));
        let records = filled_up(read);
        assert_eq!(records.write_claim(), Ok(record.claim));
        assert_eq!(records.write_proof(), Ok(record.proof));
        files += 1;
    }
    assert!(files > 2000, "only {files} files are written again");
}

/// The file that records stand for, fit or not: each field that is not 0 has its
/// bit, and so has each that the kind or rule has. None where a count has no two
/// bytes, or promises more records than there are; where the goals' counts do not add
/// up, or there are other roots than goals; and where the form is none.
fn files(records: &Records) -> Option<(Vec<u8>, Vec<u8>)> {
    let (goals, roots) = (records.goal_counts.len(), records.roots.len());
    let counts = records.goal_counts.iter().map(|&count| usize::from(count));
    let fit = match records.form {
        1 => goals == 1 && roots == 0,
        2 => goals == roots,
        _ => false,
    };
    if !fit || counts.sum::<usize>() != records.members.len() {
        return None;
    }
    let mut claim = [b"CLM", &[b'0' + records.form][..]].concat();
    put_count(&mut claim, records.entry_count)?;
    for record in records.entries.get(..records.entry_count)? {
        let map = Kind::from_byte(record.kind).map_or(0, Kind::map);
        put_fields(&mut claim, map, record.kind, &[record.a, record.b]);
    }
    if records.form == 2 {
        put_count(&mut claim, goals)?;
    }
    let mut members = records.members.iter().copied();
    for &count in &records.goal_counts {
        put_list(&mut claim, &[count]);
        let members: Vec<u16> = members.by_ref().take(count.into()).collect();
        put_list(&mut claim, &members);
    }
    let mut proof = [b"PRF", &[b'0' + records.form][..]].concat();
    put_count(&mut proof, records.node_count)?;
    put_list(&mut proof, &records.roots);
    let mut codes = records.codes.iter().copied();
    for record in records.nodes.get(..records.node_count)? {
        let map = Rule::from_byte(record.rule).map_or(0, Rule::low_bits);
        let bit = u8::from(record.count > 0) << 4;
        let fields = [record.principal, record.first, record.second, record.back];
        put_fields(&mut proof, map | bit, record.rule, &fields);
        if record.count > 0 {
            let codes: Vec<u16> = codes.by_ref().take(record.count.into()).collect();
            proof.push(record.count);
            put_list(&mut proof, &codes);
        }
    }
    Some((claim, proof))
}

fn put_count(file: &mut Vec<u8>, count: usize) -> Option<()> {
    put_list(file, &[u16::try_from(count).ok()?]);
    Some(())
}

fn put_list(file: &mut Vec<u8>, list: &[u16]) {
    file.extend(list.iter().flat_map(|number| number.to_le_bytes()));
}

fn put_fields(file: &mut Vec<u8>, map: u8, second: u8, fields: &[u16]) {
    let bits = fields.iter().enumerate();
    let map = bits.fold(map, |map, (bit, &field)| map | u8::from(field != 0) << bit);
    file.extend([map, second]);
    for (bit, &field) in fields.iter().enumerate() {
        if map >> bit & 1 == 1 {
            put_list(file, &[field]);
        }
    }
}

/// "with the number and place the reader would give for the file"
#[test]
fn the_reader_says_the_same_of_the_file() {
    let (mut read, mut refused, mut several) = (0, 0, 0);
    for record in generate::writes(5).take(10_000) {
        let Some((claim, proof)) = files(&record.records) else {
            continue;
        };
        let answer = check(&claim, &proof);
        let expected = match answer >> 16 {
            0 | 36..=39 => Ok(proof),
            _ => Err(Refusal::unpack(answer).expect("a refusal")),
        };
        assert_eq!(record.proof, expected);
        several += usize::from(record.records.form == 2);
        // A claim alone, before a proof that is none.
        let expected = match Refusal::unpack(check(&claim, b"")) {
            Some(Refusal { number: 30, .. }) => Ok(claim),
            other => Err(other.expect("a refusal")),
        };
        assert_eq!(record.claim, expected);
        read += 1;
        refused += usize::from(record.proof.is_err());
    }
    assert!(
        read > 7000 && refused > 3000 && several > 3000,
        "{refused} of {read} files refused, {several} of several goals"
    );
}
