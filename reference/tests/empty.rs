//! T-06, sentence by sentence: claims without goals and without entries, and proofs
//! without nodes.

use reference::draft::{self, DraftNode, DraftState};
use reference::generate;
use reference::{answer_wide, check, describe, describe_wide, evaluate, judge};
use reference::{Claim, Entry, Form, Gate, Kind, Rule};

/// No entries and no goals, and no nodes.
const CLAIM: &[u8] = b"CLM2\0\0\0\0";
const PROOF: &[u8] = b"PRF2\0\0";

/// One state without letters or successors.
const MODEL: &[u8] = b"MDL1\x01\0";

fn e(kind: Kind, a: u16) -> Entry {
    Entry::new(kind, a, 0)
}

fn verdict(claim: &[u8], proof: &[u8]) -> String {
    describe(check(claim, proof))
}

fn evaluated(claim: &[u8], model: &[u8]) -> String {
    describe_wide(answer_wide(&evaluate(claim, model)))
}

fn claim(entries: &[Entry], goals: &[&[u16]]) -> Vec<u8> {
    let goals: Vec<Vec<u16>> = goals.iter().map(|goal| goal.to_vec()).collect();
    draft::goal_claim(entries, &goals).bytes
}

fn proof(roots: &[u16], nodes: &[DraftNode]) -> Vec<u8> {
    draft::goal_proof(roots, nodes).bytes
}

fn n(rule: Rule, [first, second]: [u16; 2], codes: &[u16]) -> DraftNode {
    let node = DraftNode::new(rule, 0, codes.to_vec());
    DraftNode {
        first,
        second,
        ..node
    }
}

fn leaf(codes: &[u16]) -> DraftNode {
    n(Rule::Ax2, [0, 0], codes)
}

/// "A claim without goals is accepted with a `PRF2` proof of zero nodes and no roots",
/// whatever fit entries it has.
#[test]
fn no_goals_and_no_nodes() {
    assert_eq!(claim(&[], &[]), CLAIM);
    assert_eq!(proof(&[], &[]), PROOF);
    assert_eq!(verdict(CLAIM, PROOF), "accept");
    let entries = [e(Kind::Name, 2), e(Kind::Box, 0), e(Kind::Nu, 1)];
    assert_eq!(verdict(&claim(&entries, &[]), PROOF), "accept");
    let truths = vec![e(Kind::True, 0); 256];
    assert_eq!(verdict(&claim(&truths, &[]), PROOF), "accept");
    let longer = claim(&vec![e(Kind::True, 0); 257], &[]);
    assert_eq!(verdict(&longer, PROOF), "refuse 12 at 4");
}

/// Entries that no goal has for a member are judged all the same.
#[test]
fn entries_without_goals_are_judged() {
    let refused = |entries: &[Entry]| verdict(&claim(entries, &[]), PROOF);
    assert_eq!(refused(&[e(Kind::Letter, 32)]), "refuse 20 at 0");
    assert_eq!(refused(&[e(Kind::Box, 0)]), "refuse 20 at 0");
    let action = [e(Kind::True, 0), Entry::new(Kind::Box, 0, 16)];
    assert_eq!(refused(&action), "refuse 71 at 1");
    let free = [e(Kind::Name, 2), e(Kind::Box, 0), e(Kind::Nu, 1)];
    let outside = [&free[..], &[e(Kind::Box, 0)]].concat();
    assert_eq!(refused(&outside), "refuse 21 at 3");
    let mixed = [
        e(Kind::Name, 3),
        e(Kind::Box, 0),
        e(Kind::Nu, 1),
        e(Kind::Mu, 2),
    ];
    assert_eq!(refused(&mixed), "refuse 22 at 2");
    assert_eq!(
        refused(&[e(Kind::Name, 1), e(Kind::Mu, 0)]),
        "refuse 23 at 1"
    );
    let mut unfit = claim(&[e(Kind::True, 0)], &[]);
    unfit[6] = 1;
    assert_eq!(verdict(&unfit, PROOF), "refuse 13 at 6");
}

/// "and only with that": no other opening, no roots, no nodes and no further byte.
#[test]
fn nothing_else_proves_no_goals() {
    for opening in [b"PRF1", b"PRF0", b"PRF3", b"CLM2", b"MDL2"] {
        let other = [&opening[..], &PROOF[4..]].concat();
        assert_eq!(verdict(CLAIM, &other), "refuse 30 at 0");
    }
    for length in 0..PROOF.len() {
        let expected = match length {
            0..=3 => "refuse 30 at 0".to_string(),
            _ => format!("refuse 31 at {length}"),
        };
        assert_eq!(verdict(CLAIM, &PROOF[..length]), expected);
    }
    // A root would stand where nothing is read: there is none to be out of range.
    assert_eq!(verdict(CLAIM, &proof(&[0], &[])), "refuse 31 at 6");
    assert_eq!(
        verdict(CLAIM, &[PROOF, &[0][..]].concat()),
        "refuse 31 at 6"
    );
    for count in 1..=u16::MAX {
        let [low, high] = count.to_le_bytes();
        let promised = [b"PRF2", &[low, high][..]].concat();
        let expected = match count {
            1..=1024 => "refuse 31 at 6",
            _ => "refuse 32 at 4",
        };
        assert_eq!(verdict(CLAIM, &promised), expected);
    }
}

/// "well-formed nodes get 35, as node 0 at least is an orphan": at the first bad child
/// number by rising parent, else at node 0.
#[test]
fn nodes_without_goals() {
    let truth = claim(&[e(Kind::True, 0)], &[]);
    let refused = |nodes: &[DraftNode]| verdict(&truth, &proof(&[], nodes));
    assert_eq!(refused(&[leaf(&[1])]), "refuse 35 at 0");
    assert_eq!(refused(&[leaf(&[]), leaf(&[1])]), "refuse 35 at 0");
    let d = |child| n(Rule::D, [child, 0], &[1]);
    assert_eq!(refused(&[d(1), leaf(&[1])]), "refuse 35 at 0");
    // Node 0 is no root that may not be a child, but nobody's child has its number.
    assert_eq!(refused(&[d(1), d(0), leaf(&[1])]), "refuse 35 at 1");
    assert_eq!(refused(&[d(1), d(1)]), "refuse 35 at 1");
    assert_eq!(refused(&[d(1), d(2)]), "refuse 35 at 1");
    assert_eq!(refused(&[d(1), d(65_535)]), "refuse 35 at 1");
    assert_eq!(refused(&[d(2), d(2), leaf(&[1])]), "refuse 35 at 1");
    let and = n(Rule::And, [1, 1], &[1]);
    assert_eq!(refused(&[d(2), and, leaf(&[1])]), "refuse 35 at 1");
    assert_eq!(refused(&vec![leaf(&[1]); 1024]), "refuse 35 at 0");
    assert_eq!(refused(&vec![leaf(&[1]); 1025]), "refuse 32 at 4");
    // Only nodes that are well formed by their bytes get that far.
    assert_eq!(refused(&[leaf(&[2])]), "refuse 34 at 9");
    let unfit = [b"PRF2\x01\0".as_slice(), &[0xff, 1]].concat();
    assert_eq!(verdict(&truth, &unfit), "refuse 33 at 6");
    // Over no entries no code is in range, and a sequent may be empty.
    assert_eq!(verdict(CLAIM, &proof(&[], &[leaf(&[0])])), "refuse 34 at 9");
    assert_eq!(verdict(CLAIM, &proof(&[], &[leaf(&[])])), "refuse 35 at 0");
}

/// "Goals but zero nodes: the first root is out of range, 34 at 6, or 31 at 6 if the
/// file ends there."
#[test]
fn goals_without_nodes() {
    for goals in 1..=16 {
        let truth = claim(&[e(Kind::True, 0)], &vec![&[0][..]; goals]);
        assert_eq!(verdict(&truth, PROOF), "refuse 31 at 6");
        for root in [0, 1, 255, 256, 65_535] {
            let rooted = proof(&vec![root; goals], &[]);
            assert_eq!(verdict(&truth, &rooted), "refuse 34 at 6");
            assert_eq!(verdict(&truth, &rooted[..7]), "refuse 31 at 7");
            assert_eq!(verdict(&truth, &rooted[..8]), "refuse 34 at 6");
        }
    }
}

/// "Zero entries with a goal: 14 at the first member, 12 if the member count is 0." "A
/// member list inside a goal still has at least one member."
#[test]
fn goals_without_entries() {
    let refused = |goals: &[&[u16]]| verdict(&claim(&[], goals), PROOF);
    for member in [0, 1, 255, 256, 65_535] {
        assert_eq!(refused(&[&[member]]), "refuse 14 at 10");
        assert_eq!(refused(&[&[member, 0], &[]]), "refuse 14 at 10");
    }
    assert_eq!(refused(&[&[]]), "refuse 12 at 8");
    assert_eq!(refused(&[&[], &[0]]), "refuse 12 at 8");
    assert_eq!(refused(&[&[0; 25]]), "refuse 12 at 8");
    assert_eq!(refused(&[&[0][..]; 17]), "refuse 72 at 6");
    // Nothing of it is to be evaluated either.
    assert_eq!(evaluated(&claim(&[], &[&[0]]), MODEL), "refuse 14 at 10");
    assert_eq!(evaluated(&claim(&[], &[&[]]), MODEL), "refuse 12 at 8");
    let truth = [e(Kind::True, 0)];
    assert_eq!(verdict(&claim(&truth, &[&[]]), PROOF), "refuse 12 at 10");
    assert_eq!(
        verdict(&claim(&truth, &[&[0], &[]]), PROOF),
        "refuse 12 at 14"
    );
}

/// "`CLM1` and `PRF1` keep 12 and 32 for zero."
#[test]
fn the_form_with_one_goal() {
    for rest in [&b""[..], b"\0", b"\0\0", b"\x01\0\0\0"] {
        let none = [b"CLM1\0\0", rest].concat();
        for proof in [PROOF, b"PRF1\0\0", b""] {
            assert_eq!(verdict(&none, proof), "refuse 12 at 4");
        }
        assert_eq!(evaluated(&none, MODEL), "refuse 12 at 4");
    }
    let truth = draft::claim(&[e(Kind::True, 0)], &[0]).bytes;
    assert_eq!(verdict(&truth, b"PRF1\0\0"), "refuse 32 at 4");
    assert_eq!(verdict(&truth, PROOF), "refuse 30 at 0");
    let no_members = draft::claim(&[e(Kind::True, 0)], &[]).bytes;
    assert_eq!(verdict(&no_members, b"PRF1\0\0"), "refuse 12 at 8");
}

/// Every number in the place of the entry count and of the goal count, where nothing
/// follows.
#[test]
fn every_count() {
    for count in 0..=u16::MAX {
        let bytes = count.to_le_bytes();
        let counted = |at: usize| {
            let mut claim = CLAIM.to_vec();
            claim[at..at + 2].copy_from_slice(&bytes);
            verdict(&claim, PROOF)
        };
        // The goal count of zero is the first entry's map and kind: false, without
        // fields.
        let entries = match count {
            0 => "accept",
            1..=256 => "refuse 11 at 8",
            _ => "refuse 12 at 4",
        };
        assert_eq!(counted(4), entries, "{count} entries");
        let goals = match count {
            0 => "accept",
            1..=16 => "refuse 11 at 8",
            _ => "refuse 72 at 6",
        };
        assert_eq!(counted(6), goals, "{count} goals");
    }
}

#[test]
fn cut_and_lengthened() {
    for length in 0..CLAIM.len() {
        let expected = match length {
            0..=3 => "refuse 10 at 0".to_string(),
            _ => format!("refuse 11 at {length}"),
        };
        assert_eq!(verdict(&CLAIM[..length], PROOF), expected);
        assert_eq!(evaluated(&CLAIM[..length], MODEL), expected);
    }
    for more in 1..20 {
        let longer = [CLAIM, &vec![0; more]].concat();
        assert_eq!(verdict(&longer, PROOF), "refuse 11 at 8");
        assert_eq!(evaluated(&longer, MODEL), "refuse 11 at 8");
    }
}

/// "An evaluation without entries is done and writes no word." Its model is judged.
#[test]
fn evaluations() {
    for model in generate::models(61).take(200) {
        assert_eq!(evaluate(CLAIM, &model), Ok(Vec::new()));
        let longer = [&model[..], &[0]].concat();
        let expected = format!("refuse 61 at {}", model.len());
        assert_eq!(evaluated(CLAIM, &longer), expected);
    }
    assert_eq!(evaluated(CLAIM, b""), "refuse 60 at 0");
    assert_eq!(evaluated(CLAIM, b"MDL1\0"), "refuse 62 at 4");
    assert_eq!(evaluated(CLAIM, b"MDL2\x01\x02\0\0"), "refuse 63 at 5");
    assert_eq!(evaluated(CLAIM, b"MDL1\x01\x02\x01\x01"), "refuse 64 at 7");
}

/// Without goals the words are those of the entries as well.
#[test]
fn an_evaluation_does_not_look_at_goals() {
    let entries = [e(Kind::Letter, 0), e(Kind::Box, 0)];
    let states = [DraftState::new(1, vec![1]), DraftState::new(0, vec![])];
    let model = draft::model(&states).bytes;
    assert_eq!(evaluate(&claim(&entries, &[]), &model), Ok(vec![1, 2]));
    assert_eq!(evaluate(&claim(&entries, &[&[1]]), &model), Ok(vec![1, 2]));
}

/// The gate gives a permit for it, and its records are those of the entries alone.
#[test]
fn the_gate_holds_a_claim_without_goals() {
    for entries in [&[][..], &[e(Kind::True, 0)]] {
        let mut gate = Gate::Open;
        let judgement = gate.present(7, &claim(entries, &[]), PROOF);
        assert_eq!((judgement.answer(), gate), (0, Gate::Holding(7)));
        let decoded = judgement.decoded.expect("accepted");
        assert_eq!(decoded.claim.entries, entries);
        assert_eq!(decoded.claim.goals().count(), 0);
        assert!(decoded.claim.members.is_empty());
        assert!(decoded.proof.nodes.is_empty() && decoded.proof.codes.is_empty());
        assert!(decoded.proof.roots().is_empty());
    }
    // 35 leaves the whole decoding.
    let judgement = judge(CLAIM, &proof(&[], &[leaf(&[])]));
    assert_eq!(describe(judgement.answer()), "refuse 35 at 0");
    assert_eq!(judgement.decoded.expect("decoded").proof.nodes.len(), 1);
}

/// Of the goals of an accepted claim none is left out: take all away with their trees,
/// and what remains is accepted; leave a tree, and it is refused.
#[test]
fn an_accepted_claim_without_its_goals() {
    for (claim, proof) in generate::accepted_in(Form::Several, 62).take(500) {
        let claim = Claim::read(&claim).expect("accepted");
        let none = draft::goal_claim(&claim.entries, &[]).bytes;
        assert_eq!(verdict(&none, PROOF), "accept");
        let nodes = 6 + 2 * claim.goals().count();
        let rootless = [&proof[..6], &proof[nodes..]].concat();
        assert_eq!(verdict(&none, &rootless), "refuse 35 at 0");
    }
}
