//! T-07, sentence by sentence: what a join of two proofs is, and what is refused, in which
//! order.

use reference::corpus::JoinRecord;
use reference::draft::{self, DraftNode};
use reference::generate::{self, extremes, Tally};
use reference::{check, describe, join, joined, judge, least_alike};
use reference::{Decoded, Entry, Files, Joined, Kind, Lengths, Node, Proof, Refusal, Rule};
use std::collections::{BTreeMap, BTreeSet};

fn e(kind: Kind, a: u16, b: u16) -> Entry {
    Entry::new(kind, a, b)
}

/// The code of an entry in focus.
fn f(entry: u16) -> u16 {
    2 * entry + 1
}

fn n(rule: Rule, principal: u16, [first, second, back]: [u16; 3], codes: &[u16]) -> DraftNode {
    let node = DraftNode::new(rule, principal, codes.to_vec());
    DraftNode {
        first,
        second,
        back,
        ..node
    }
}

/// Ax1 or Ax2.
fn leaf(rule: Rule, codes: &[u16]) -> DraftNode {
    n(rule, 0, [0; 3], codes)
}

fn files(entries: &[Entry], members: &[u16], nodes: &[DraftNode]) -> Files {
    Files {
        claim: draft::claim(entries, members).bytes,
        proof: draft::proof(nodes).bytes,
    }
}

fn refused(number: u16, place: u32) -> Joined {
    Err(Refusal { number, place })
}

fn verdict(files: &Files) -> String {
    describe(check(&files.claim, &files.proof))
}

fn decoded(files: &Files) -> Decoded {
    judge(&files.claim, &files.proof).decoded.expect("decoded")
}

/// `p` with `not p and true`, which is entry 3: the first half is an axiom, the second drops
/// `p`.
fn table() -> Vec<Entry> {
    vec![
        e(Kind::Letter, 0, 0),
        e(Kind::Negated, 0, 0),
        e(Kind::True, 0, 0),
        e(Kind::And, 1, 2),
    ]
}

fn first_over(table: &[Entry]) -> Files {
    files(table, &[0, 1], &[leaf(Rule::Ax1, &[f(0), f(1)])])
}

fn second_over(table: &[Entry]) -> Files {
    let nodes = [
        n(Rule::W, f(0), [1, 0, 0], &[f(0), f(2)]),
        leaf(Rule::Ax2, &[f(2)]),
    ];
    files(table, &[0, 2], &nodes)
}

fn first() -> Files {
    first_over(&table())
}

fn second() -> Files {
    second_over(&table())
}

#[test]
fn two_small_halves() {
    let nodes = [
        n(Rule::And, f(3), [1, 2, 0], &[f(0), f(3)]),
        leaf(Rule::Ax1, &[f(0), f(1)]),
        n(Rule::W, f(0), [3, 0, 0], &[f(0), f(2)]),
        leaf(Rule::Ax2, &[f(2)]),
    ];
    let whole = files(&table(), &[0, 3], &nodes);
    assert_eq!(verdict(&whole), "accept");
    assert_eq!(first().join(&second(), 3), Ok(whole));
}

#[test]
fn an_answer_is_two_lengths_or_a_refusal() {
    let (claim, proof) = (1592, 58_374);
    let longest = joined(Ok(Lengths { claim, proof }));
    assert_eq!(longest, 1592 + 65_536 * 58_374);
    assert_eq!(longest >> 32, 0);
    let refusal = Refusal {
        number: 73,
        place: 65_535,
    };
    assert_eq!(joined(Err(refusal)), (1 << 32) + 73 * 65_536 + 65_535);
}

/// "They fit when the rest with A's target is the first goal, the rest with B's is the
/// second": not in the other order.
#[test]
fn the_order_of_the_halves() {
    assert_eq!(second().join(&first(), 3), refused(73, 3));
    assert_eq!(first().join(&first(), 3), refused(73, 3));
    assert_eq!(second().join(&second(), 3), refused(73, 3));
}

/// "The entry is no such entry": of another kind, or out of range.
#[test]
fn every_entry_number() {
    for entry in 0..=u16::MAX {
        let outcome = first().join(&second(), entry);
        match entry {
            3 => assert!(outcome.is_ok()),
            _ => assert_eq!(outcome, refused(73, entry.into())),
        }
    }
}

/// "The entry tables differ": in the kind, a field or the number of entries, and be it of
/// an entry of no use.
#[test]
fn tables_that_differ() {
    let spare = [
        e(Kind::True, 0, 0),
        e(Kind::False, 0, 0),
        e(Kind::Letter, 5, 0),
        e(Kind::Letter, 6, 0),
        e(Kind::Or, 0, 1),
        e(Kind::Or, 1, 0),
        e(Kind::Or, 1, 1),
        e(Kind::Box, 0, 0),
        e(Kind::Box, 0, 1),
        e(Kind::Box, 1, 1),
    ];
    let tables = spare.map(|entry| [&table()[..], &[entry]].concat());
    for (at, one) in tables.iter().enumerate() {
        assert_eq!(verdict(&first_over(one)), "accept");
        assert_eq!(verdict(&second_over(one)), "accept");
        assert_eq!(first_over(one).join(&second(), 3), refused(73, 3));
        assert_eq!(first().join(&second_over(one), 3), refused(73, 3));
        for (beside, other) in tables.iter().enumerate() {
            let outcome = first_over(one).join(&second_over(other), 3);
            match at == beside {
                true => assert!(outcome.is_ok()),
                false => assert_eq!(outcome, refused(73, 3)),
            }
        }
    }
}

/// "The target of an operand is [...] its fixpoint if it is a name." The back link of the
/// first tree is renumbered, and so are the children.
#[test]
fn a_name_as_operand() {
    // nu X. box (X and true), whose conjunction is entry 2.
    let table = [
        e(Kind::Name, 4, 0),
        e(Kind::True, 0, 0),
        e(Kind::And, 0, 1),
        e(Kind::Box, 2, 0),
        e(Kind::Nu, 3, 0),
    ];
    let nodes = [
        n(Rule::D, 0, [1, 0, 0], &[f(4)]),
        n(Rule::Nu, f(4), [2, 0, 0], &[f(4)]),
        n(Rule::Box, f(3), [3, 0, 0], &[f(3)]),
        n(Rule::And, f(2), [5, 4, 0], &[f(2)]),
        leaf(Rule::Ax2, &[f(1)]),
        n(Rule::Back, 0, [0, 0, 0], &[f(4)]),
    ];
    let first = files(&table, &[4], &nodes);
    let second = files(&table, &[1], &[leaf(Rule::Ax2, &[f(1)])]);
    let expected = [
        n(Rule::And, f(2), [1, 7, 0], &[f(2)]),
        n(Rule::D, 0, [2, 0, 0], &[f(4)]),
        n(Rule::Nu, f(4), [3, 0, 0], &[f(4)]),
        n(Rule::Box, f(3), [4, 0, 0], &[f(3)]),
        n(Rule::And, f(2), [6, 5, 0], &[f(2)]),
        leaf(Rule::Ax2, &[f(1)]),
        n(Rule::Back, 0, [0, 0, 1], &[f(4)]),
        leaf(Rule::Ax2, &[f(1)]),
    ];
    let whole = files(&table, &[2], &expected);
    assert_eq!(verdict(&whole), "accept");
    assert_eq!(first.join(&second, 2), Ok(whole));
}

/// `p`, `not p` and `true` under two numbers each, and `not p and true` too.
fn twins() -> Vec<Entry> {
    vec![
        e(Kind::Letter, 0, 0),
        e(Kind::Negated, 0, 0),
        e(Kind::Letter, 0, 0),
        e(Kind::Negated, 0, 0),
        e(Kind::True, 0, 0),
        e(Kind::True, 0, 0),
        e(Kind::And, 1, 4),
        e(Kind::And, 3, 5),
    ]
}

/// A goal over the twins: `p` and `not p`, or else `true`, are kept, and all else is dropped.
fn over_twins(members: &[u16]) -> Files {
    let table = twins();
    let codes: Vec<u16> = members.iter().map(|&member| f(member)).collect();
    let of = |codes: &[u16], kinds: &[Kind]| -> Vec<u16> {
        let kept = |code: &&u16| kinds.contains(&table[usize::from(**code / 2)].kind);
        codes.iter().filter(kept).copied().collect()
    };
    let letters = [Kind::Letter, Kind::Negated];
    let has = |kind| !of(&codes, &[kind]).is_empty();
    let (rule, kept) = match has(Kind::Letter) && has(Kind::Negated) {
        true => (Rule::Ax1, &letters[..]),
        false => (Rule::Ax2, &[Kind::True][..]),
    };
    let mut rest = codes;
    let mut nodes = Vec::new();
    for kind in [Kind::Letter, Kind::Negated, Kind::True, Kind::And] {
        let dropped = of(&rest, &[kind]);
        if let (Some(&code), false) = (dropped.first(), kept.contains(&kind)) {
            let child = nodes.len() as u16 + 1;
            nodes.push(n(Rule::W, code, [child, 0, 0], &rest));
            rest.retain(|code| !dropped.contains(code));
        }
    }
    nodes.push(leaf(rule, &rest));
    let files = files(&table, members, &nodes);
    assert_eq!(verdict(&files), "accept", "{members:?}");
    files
}

fn goal_of(joined: &Joined) -> Vec<u16> {
    decoded(joined.as_ref().expect("joined")).claim.members
}

/// "The rest is every member of the first goal, under its entry number, whose formula the
/// second goal holds too."
#[test]
fn the_rest_goes_by_formula_and_has_the_numbers_of_the_first_goal() {
    let cases: [(&[u16], &[u16], &[u16]); 5] = [
        (&[0, 1], &[2, 4], &[0, 6]),
        (&[2, 3], &[0, 5], &[2, 6]),
        (&[0, 1, 2, 3], &[2, 4, 5], &[0, 2, 6]),
        (&[0, 1], &[0, 2, 4], &[0, 6]),
        (&[0, 2, 3], &[0, 5], &[0, 2, 6]),
    ];
    for (first, second, goal) in cases {
        let outcome = over_twins(first).join(&over_twins(second), 6);
        assert_eq!(goal_of(&outcome), goal);
        assert_eq!(verdict(&outcome.expect("joined")), "accept");
        let twin = over_twins(first).join(&over_twins(second), 7);
        assert_eq!(goal_of(&twin), [&goal[..goal.len() - 1], &[7]].concat());
    }
}

/// "The rest may hold A's or B's target itself".
#[test]
fn a_rest_that_holds_a_target() {
    let both = over_twins(&[0, 1, 4]);
    assert_eq!(goal_of(&both.join(&both, 6)), [0, 1, 4, 6]);
    assert_eq!(goal_of(&both.join(&over_twins(&[2, 5]), 6)), [0, 4, 6]);
    assert_eq!(goal_of(&over_twins(&[0, 3]).join(&both, 6)), [0, 3, 6]);
}

/// "The entry is no member of the rest" goes by formula.
#[test]
fn the_entry_or_a_twin_of_it_in_the_rest() {
    for [one, other] in [[6, 6], [6, 7], [7, 6], [7, 7]] {
        let (first, second) = (over_twins(&[0, 1, one]), over_twins(&[0, 4, other]));
        for entry in [6, 7] {
            assert_eq!(first.join(&second, entry), refused(73, entry.into()));
        }
    }
    // In one goal alone it is no member of the rest, and no target either.
    let first = over_twins(&[0, 1, 6]);
    assert_eq!(first.join(&over_twins(&[0, 4]), 6), refused(73, 6));
}

/// A member that only one goal has, and that is not its target.
#[test]
fn goals_that_do_not_fit() {
    for (first, second) in [
        (&[0, 1, 4][..], &[4][..]),
        (&[0, 1], &[4]),
        (&[4], &[0, 4]),
        (&[0, 4], &[0, 4]),
        (&[0, 1], &[0, 1]),
    ] {
        let outcome = over_twins(first).join(&over_twins(second), 6);
        assert_eq!(outcome, refused(73, 6), "{first:?} and {second:?}");
    }
    assert_eq!(
        goal_of(&over_twins(&[1, 4]).join(&over_twins(&[4]), 6)),
        [4, 6]
    );
}

/// "74, after it, more than 1,024 nodes result".
#[test]
fn as_many_nodes_as_there_may_be() {
    for first in [1, 2, 511, 1021] {
        let (entry, [one, other]) = extremes::halves(3, 0, [first, 1023 - first]);
        let whole = one.join(&other, entry).expect("joined");
        assert_eq!(verdict(&whole), "accept");
        assert_eq!(decoded(&whole).proof.nodes.len(), 1024);
        let (entry, [one, other]) = extremes::halves(3, 0, [first, 1024 - first]);
        assert_eq!(one.join(&other, entry), refused(74, 0));
    }
    let (entry, [one, other]) = extremes::halves(3, 0, [1024, 1024]);
    assert_eq!(one.join(&other, entry), refused(74, 0));
}

/// "24 members suffice": the rest and the entry.
#[test]
fn as_many_members_as_there_may_be() {
    let (entry, [one, other]) = extremes::halves(26, 23, [0, 0]);
    let whole = one.join(&other, entry).expect("joined");
    assert_eq!(verdict(&whole), "accept");
    assert_eq!(decoded(&whole).claim.members.len(), 24);
    // With both targets in the rest, a goal of 23 members gives 24, and one of 24 gives 25.
    for letters in [21, 22] {
        let mut table = vec![e(Kind::True, 0, 0), e(Kind::Or, 0, 0)];
        table.extend((0..letters).map(|letter| e(Kind::Letter, letter, 0)));
        table.push(e(Kind::And, 0, 1));
        let members: Vec<u16> = (0..letters + 2).collect();
        let codes: Vec<u16> = members.iter().map(|&member| f(member)).collect();
        let mut nodes: Vec<DraftNode> = (1..codes.len())
            .rev()
            .zip(1..)
            .map(|(last, child)| n(Rule::W, codes[last], [child, 0, 0], &codes[..=last]))
            .collect();
        nodes.push(leaf(Rule::Ax2, &codes[..1]));
        let half = files(&table, &members, &nodes);
        assert_eq!(verdict(&half), "accept");
        let (outcome, entry) = (half.join(&half, letters + 2), letters + 2);
        match letters {
            21 => assert_eq!(goal_of(&outcome).len(), 24),
            _ => assert_eq!(outcome, refused(73, entry.into())),
        }
    }
}

/// "In the `CLM1` and `PRF1` forms only (another opening gets 10 or 30)".
#[test]
fn other_openings() {
    let several = |files: &Files| {
        let Decoded { claim, .. } = decoded(files);
        Files {
            claim: draft::goal_claim(&claim.entries, &[claim.members]).bytes,
            proof: [b"PRF2", &files.proof[4..6], &[0, 0], &files.proof[6..]].concat(),
        }
    };
    for other in [several(&first()), several(&second())] {
        assert_eq!(verdict(&other), "accept");
        assert_eq!(other.join(&second(), 3), refused(10, 0));
        assert_eq!(first().join(&other, 3), refused(10, 0));
    }
    for opening in [b"CLM2", b"LIN1", b"CLM0", b"PRF1", b"clm1"] {
        let mut other = first();
        other.claim[..4].copy_from_slice(opening);
        assert_eq!(other.join(&second(), 3), refused(10, 0));
        let mut other = second();
        other.claim[..4].copy_from_slice(opening);
        assert_eq!(first().join(&other, 3), refused(10, 0));
    }
    for opening in [b"PRF2", b"PRF0", b"CLM1", b"prf1"] {
        let mut other = first();
        other.proof[..4].copy_from_slice(opening);
        assert_eq!(other.join(&second(), 3), refused(30, 0));
        let mut other = second();
        other.proof[..4].copy_from_slice(opening);
        assert_eq!(first().join(&other, 3), refused(30, 0));
    }
}

/// "Both inputs are judged first, the first before the second, by their own refusals":
/// whichever of the four files are cut by a byte, the first of them is refused, and an entry
/// that is none after all.
#[test]
fn the_first_fault_by_the_order_of_the_files() {
    for cut in 1..16_u32 {
        let mut halves = [first(), second()];
        let [one, other] = &mut halves;
        let files = [
            &mut one.claim,
            &mut one.proof,
            &mut other.claim,
            &mut other.proof,
        ];
        let lengths = files.each_ref().map(|file| file.len() as u32 - 1);
        for (at, file) in files.into_iter().enumerate() {
            if cut >> at & 1 == 1 {
                file.pop();
            }
        }
        let worst = cut.trailing_zeros() as usize;
        let expected = refused([11, 31, 11, 31][worst], lengths[worst]);
        for entry in [3, 0, 65_535] {
            assert_eq!(halves[0].join(&halves[1], entry), expected, "{cut:04b}");
        }
    }
}

/// A rule that is not kept in the first proof comes before an opening that is none in the
/// second claim.
#[test]
fn the_first_pair_is_judged_whole() {
    let mut one = first();
    one.proof = draft::proof(&[leaf(Rule::Ax2, &[f(0), f(1)])]).bytes;
    assert_eq!(verdict(&one), "refuse 37 at 0");
    let none = Files {
        claim: Vec::new(),
        proof: Vec::new(),
    };
    assert_eq!(one.join(&none, 65_535), refused(37, 0));
    assert_eq!(first().join(&none, 65_535), refused(10, 0));
    assert_eq!(none.join(&one, 65_535), refused(10, 0));
}

/// What a join leaves in slices of these lengths.
fn in_room(record: &JoinRecord, claim: usize, proof: usize) -> (Result<Lengths, Refusal>, bool) {
    let mut out = [vec![0xee; claim], vec![0xee; proof]];
    let [claim_out, proof_out] = &mut out;
    let outcome = join(
        record.entry,
        &record.first,
        &record.second,
        claim_out,
        proof_out,
    );
    let written = |out: &[u8], file: &[u8]| {
        let (begin, beyond) = out.split_at(file.len());
        begin == file && beyond.iter().all(|&byte| byte == 0xee)
    };
    let right = match (&outcome, &record.joined) {
        (Ok(_), Ok(files)) => written(&out[0], &files.claim) && written(&out[1], &files.proof),
        _ => written(&out[0], &[]) && written(&out[1], &[]),
    };
    (outcome, right)
}

/// "Then 70 for a short output slice. No refusal of this call writes anything."
#[test]
fn slices_of_every_length() {
    let short = Refusal {
        number: 70,
        place: 0,
    };
    let mut numbers = Vec::new();
    for record in generate::joins(71).take(2_000) {
        let joined = record.joined.as_ref().map(Files::lengths);
        let (claim, proof) = joined.map_or((30, 50), |files| (files.claim, files.proof));
        for (claim_room, proof_room) in [
            (claim, proof),
            (claim - 1, proof + 9),
            (claim + 9, proof - 1),
            (0, proof),
            (claim, 0),
            (0, 0),
            (claim + 1, proof + 1),
        ] {
            let expected = match claim_room < claim || proof_room < proof {
                true => joined.map_err(|refusal| *refusal).and(Err(short)),
                false => joined.map_err(|refusal| *refusal),
            };
            let (outcome, right) = in_room(&record, claim_room, proof_room);
            assert_eq!(outcome, expected);
            assert!(right, "{outcome:?}");
            numbers.push(outcome.err().map_or(0, |refusal| refusal.number.into()));
        }
    }
    let tally = Tally::of(numbers.into_iter());
    for number in [0, 70, 73, 74] {
        assert!(tally.count(number) > 0, "no {number} in\n{tally}");
    }
}

/// 73 before 74 before 70.
#[test]
fn the_last_refusals_in_their_order() {
    let (entry, [one, other]) = extremes::halves(3, 0, [1024, 1024]);
    let outcome = |entry| join(entry, &one, &other, &mut [], &mut []);
    let refusal = |number, place| Err(Refusal { number, place });
    assert_eq!(outcome(entry), refusal(74, 0));
    assert_eq!(outcome(0), refusal(73, 0));
    assert_eq!(outcome(65_535), refusal(73, 65_535));
    let (entry, [one, other]) = extremes::halves(3, 0, [1, 2]);
    let outcome = |entry| join(entry, &one, &other, &mut [], &mut []);
    assert_eq!(outcome(entry), refusal(70, 0));
    assert_eq!(outcome(1), refusal(73, 1));
}

/// The node of the joined proof that this one is, by its place in the file: fields that its
/// rule lacks stay 0.
fn renumbered(node: &Node, by: u16) -> Node {
    let Node {
        rule,
        first,
        second,
        back,
        ..
    } = *node;
    let (first, second, back) = match rule {
        Rule::Ax1 | Rule::Ax2 => (0, 0, 0),
        Rule::And => (first + by, second + by, 0),
        Rule::Back => (0, 0, back + by),
        _ => (first + by, 0, 0),
    };
    Node {
        first,
        second,
        back,
        ..*node
    }
}

fn renumbered_all(proof: &Proof, by: usize) -> Vec<Node> {
    let nodes = proof.nodes.iter();
    nodes.map(|node| renumbered(node, by as u16)).collect()
}

/// "The whole must be accepted, its nodes being the new root, the first tree and the
/// second, renumbered in that order."
fn assert_whole(record: &JoinRecord, files: &Files) {
    assert_eq!(verdict(&record.first), "accept");
    assert_eq!(verdict(&record.second), "accept");
    assert_eq!(verdict(files), "accept");
    let [one, other, whole] = [&record.first, &record.second, files].map(decoded);
    assert_eq!(one.claim.entries, other.claim.entries);
    assert_eq!(whole.claim.entries, one.claim.entries);
    let members = &whole.claim.members;
    assert!(members.contains(&record.entry));
    let (root, trees) = whole.proof.nodes.split_first().expect("a root");
    let (first, second) = trees.split_at(one.proof.nodes.len());
    let (start, count) = (1 + first.len() as u16, members.len() as u8);
    let principal = f(record.entry);
    assert_eq!(
        *root,
        Node {
            rule: Rule::And,
            principal,
            first: 1,
            second: start,
            back: 0,
            count
        }
    );
    assert_eq!(first, renumbered_all(&one.proof, 1));
    assert_eq!(second, renumbered_all(&other.proof, start.into()));
    let codes: Vec<u16> = members.iter().map(|&member| f(member)).collect();
    let expected = [&codes[..], &one.proof.codes, &other.proof.codes].concat();
    assert_eq!(whole.proof.codes, expected);
}

/// The formulas of a list, each by its least entry.
fn formulas(least: &[u16], entries: &[u16]) -> BTreeSet<u16> {
    entries.iter().map(|&e| least[usize::from(e)]).collect()
}

/// What there is about a joined pair that could be got wrong.
fn features(record: &JoinRecord, files: &Files) -> [(&'static str, bool); 11] {
    let [one, other, whole] = [&record.first, &record.second, files].map(decoded);
    let entries = &whole.claim.entries;
    let Entry { a, b, .. } = entries[usize::from(record.entry)];
    let name = |operand: u16| entries[usize::from(operand)].kind == Kind::Name;
    let mut rest = whole.claim.members;
    rest.retain(|&member| member != record.entry);
    let least = least_alike(entries);
    let formula = |entry: u16| least[usize::from(entry)];
    let held = formulas(&least, &rest);
    let alike = |&&other: &&u16| other == formula(record.entry);
    let elsewhere = |member: &u16| !other.claim.members.contains(member);
    let loops = |proof: &Proof| proof.nodes.iter().any(|node| node.rule == Rule::Back);
    [
        ("a name as operand", name(a) || name(b)),
        ("A and A", formula(a) == formula(b)),
        ("A in the rest", held.contains(&formula(a))),
        ("no rest", rest.is_empty()),
        ("a rest of 23", rest.len() == 23),
        ("other numbers in the second", rest.iter().any(elsewhere)),
        ("twins in the rest", held.len() < rest.len()),
        (
            "a twin of the entry",
            least.iter().filter(alike).count() > 1,
        ),
        ("a loop in the first tree", loops(&one.proof)),
        ("a loop in the second tree", loops(&other.proof)),
        ("1,024 nodes", whole.proof.nodes.len() == 1024),
    ]
}

#[test]
fn joined_proofs_are_accepted_and_are_root_first_and_second() {
    let mut seen: BTreeMap<&str, usize> = BTreeMap::new();
    for record in generate::joins(72).take(10_000) {
        if let Ok(files) = &record.joined {
            assert_whole(&record, files);
            for (feature, here) in features(&record, files) {
                *seen.entry(feature).or_default() += usize::from(here);
            }
        }
    }
    println!("{seen:?}");
    assert!(seen.values().all(|&times| times >= 10), "{seen:?}");
}

/// Which conditions of 73 two accepted halves break.
fn unfit(record: &JoinRecord) -> Vec<&'static str> {
    let [one, other] = [&record.first, &record.second].map(|files| decoded(files).claim);
    if one.entries != other.entries {
        return vec!["tables"];
    }
    let entries = &one.entries;
    let entry = entries.get(usize::from(record.entry));
    let Some(&Entry { a, b, .. }) = entry.filter(|entry| entry.kind == Kind::And) else {
        return vec!["entry"];
    };
    let least = least_alike(entries);
    let [first, second] = [&one, &other].map(|claim| formulas(&least, &claim.members));
    let held: BTreeSet<u16> = first.intersection(&second).copied().collect();
    let with = |operand: u16| &held | &formulas(&least, &[operand]);
    let in_both = |member: &&u16| held.contains(&least[usize::from(**member)]);
    let listed = one.members.iter().filter(in_both).count();
    let conditions = [
        ("the first goal", with(a) == first),
        ("the second goal", with(b) == second),
        ("apart", !held.contains(&least[usize::from(record.entry)])),
        ("24 members", listed < 24),
    ];
    let broken = conditions.into_iter().filter(|condition| !condition.1);
    broken.map(|condition| condition.0).collect()
}

/// Two accepted halves get 73 just where a condition is broken, and each condition is
/// broken by itself, too.
#[test]
fn every_way_not_to_fit_occurs() {
    let mut alone: BTreeMap<&str, usize> = BTreeMap::new();
    for record in generate::joins(73).take(20_000) {
        if ![0, 73, 74].contains(&record.number()) {
            continue;
        }
        let broken = unfit(&record);
        assert_eq!(broken.is_empty(), record.number() != 73, "{broken:?}");
        if let [condition] = broken[..] {
            *alone.entry(condition).or_default() += 1;
        }
    }
    println!("{alone:?}");
    assert_eq!(alone.len(), 6, "{alone:?}");
    assert!(alone.values().all(|&times| times >= 10), "{alone:?}");
}

#[test]
fn every_outcome_of_a_join_occurs() {
    let records = generate::joins(1).take(20_000);
    let tally = Tally::of(records.map(|record| record.number()));
    println!("{tally}");
    let numbers = (10..=14).chain(20..=23).chain(30..=39).chain([71, 73, 74]);
    for number in numbers {
        assert!(tally.count(number) > 0, "no refusal {number} in\n{tally}");
    }
    assert!(
        tally.count(0) * 3 >= tally.total(),
        "few joined in\n{tally}"
    );
}

#[test]
fn the_same_seed_gives_the_same_proofs_to_join() {
    let joins = |seed| generate::joins(seed).take(300).collect::<Vec<_>>();
    assert_eq!(joins(3), joins(3));
    assert_ne!(joins(3), joins(4));
}
