//! Each limit of documents 01 and 02 met, and exceeded by one, on the built gate:
//! number and place as written there, through every call that reads the file.

use gate_tests::decode::{decode, entries, Decoding};
use gate_tests::lent::{Lent, LentWords, GOALS_CLAIM_BYTES, GOALS_PROOF_BYTES, MODEL_BYTES};
use gate_tests::lent::{CLAIM_BYTES, PROOF_BYTES};
use gate_tests::{check, evaluate, present, Gate};
use reference::draft::{self, DraftNode, DraftState};
use reference::generate::extremes;
use reference::{answer_wide, describe, describe_wide, Entry, Kind, Rule};

const OPEN: Gate = Gate {
    phase: Gate::OPEN,
    tag: 3,
};

/// The single check, and presenting in slices of the least lengths, answer this,
/// and so does the reference.
fn assert_checked(claim: &[u8], proof: &[u8], expected: &str) {
    assert_eq!(describe(reference::check(claim, proof)), expected);
    assert_eq!(describe(check(claim, proof)), expected);
    let (mut gate, mut lent) = (OPEN, Lent::least());
    let got = present(&mut gate, 7, claim, proof, &mut lent);
    assert_eq!(describe(got), expected);
    let decoded = matches!(got >> 16, 0 | 35..=39);
    let decoding = if decoded {
        decode(claim, proof)
    } else {
        Decoding::default()
    };
    lent.assert_holds(&decoding, expected);
    let held = Gate {
        phase: Gate::HOLDING,
        tag: 7,
    };
    assert_eq!(gate, if got == 0 { held } else { OPEN }, "{expected}");
}

/// The evaluation answers this, and so does the reference.
fn assert_evaluated(claim: &[u8], model: &[u8], expected: &str) {
    let outcome = reference::evaluate(claim, model);
    assert_eq!(describe_wide(answer_wide(&outcome)), expected);
    let mut lent = LentWords::least();
    assert_eq!(describe_wide(evaluate(claim, model, &mut lent)), expected);
    match outcome {
        Ok(words) => lent.assert_holds(&entries(claim), &words, expected),
        Err(_) => lent.assert_untouched(expected),
    }
}

/// A claim is read by the check and by the evaluation.
fn assert_claim(claim: &[u8], proof: &[u8], expected: &str) {
    assert_checked(claim, proof, expected);
    assert_evaluated(claim, &states(1), expected);
}

fn truths(count: usize) -> Vec<Entry> {
    vec![Entry::new(Kind::True, 0, 0); count]
}

fn ax2() -> DraftNode {
    DraftNode::new(Rule::Ax2, 0, vec![1])
}

/// States without letters and successors.
fn states(count: usize) -> Vec<u8> {
    draft::model(&vec![DraftState::default(); count]).bytes
}

/// The file with another byte at an offset.
fn with_byte(mut file: Vec<u8>, offset: usize, byte: u8) -> Vec<u8> {
    file[offset] = byte;
    file
}

#[test]
fn entries_1_to_256() {
    let proof = draft::proof(&[ax2()]).bytes;
    let claim = |count| draft::claim(&truths(count), &[0]).bytes;
    assert_claim(&claim(1), &proof, "accept");
    assert_claim(&claim(256), &proof, "accept");
    assert_claim(&claim(257), &proof, "refuse 12 at 4");
    assert_claim(&claim(0), &proof, "refuse 12 at 4");
}

#[test]
fn members_1_to_24() {
    for (count, expected) in [
        (1, "accept"),
        (24, "accept"),
        // Behind the opening, the entry count, truth in two bytes and 24 letters
        // in four.
        (25, "refuse 12 at 104"),
    ] {
        let (claim, proof) = extremes::weakened(count);
        assert_claim(&claim.bytes, &proof.bytes, expected);
    }
    let none = draft::claim(&truths(1), &[]).bytes;
    let proof = draft::proof(&[ax2()]).bytes;
    assert_claim(&none, &proof, "refuse 12 at 8");
}

#[test]
fn members_rise_and_are_no_names() {
    let proof = draft::proof(&[ax2()]).bytes;
    let claim = |members: &[u16]| {
        let nu = [
            Entry::new(Kind::True, 0, 0),
            Entry::new(Kind::Name, 3, 0),
            Entry::new(Kind::Box, 1, 0),
            Entry::new(Kind::Nu, 2, 0),
        ];
        draft::claim(&nu, members).bytes
    };
    assert_claim(&claim(&[0]), &proof, "accept");
    // The members stand behind 20 bytes of entries and their count.
    assert_claim(&claim(&[2, 3, 0]), &proof, "refuse 14 at 26");
    assert_claim(&claim(&[0, 0]), &proof, "refuse 14 at 24");
    assert_claim(&claim(&[0, 1]), &proof, "refuse 14 at 24");
    assert_claim(&claim(&[0, 4]), &proof, "refuse 14 at 24");
}

#[test]
fn letters_0_to_31() {
    for (number, expected) in [
        (0, "accept"),
        (31, "accept"),
        (32, "refuse 20 at 0"),
        (65_535, "refuse 20 at 0"),
    ] {
        let (claim, proof) = extremes::letter(number);
        assert_claim(&claim.bytes, &proof.bytes, expected);
    }
    let negated = [
        Entry::new(Kind::True, 0, 0),
        Entry::new(Kind::Negated, 32, 0),
    ];
    let claim = draft::claim(&negated, &[0]).bytes;
    assert_claim(&claim, &draft::proof(&[ax2()]).bytes, "refuse 20 at 1");
}

/// "An action from 1 to 15 in field B (map 3); map 1 means action 0."
#[test]
fn actions_0_to_15() {
    let proof = draft::proof(&[ax2()]).bytes;
    for kind in [Kind::Diamond, Kind::Box] {
        let entries = |action| [Entry::new(Kind::True, 0, 0), Entry::new(kind, 0, action)];
        for action in 0..16 {
            let claim = draft::claim(&entries(action), &[0]).bytes;
            assert_claim(&claim, &proof, "accept");
        }
        for action in [16, 17, 31, 32, 255, 256, 257, 4096, 65_535] {
            let claim = draft::claim(&entries(action), &[0]).bytes;
            assert_claim(&claim, &proof, "refuse 71 at 1");
        }
        let written_out = draft::claim_written_out(&entries(0), &[0], |_| true).bytes;
        assert_claim(&written_out, &proof, "refuse 71 at 1");
    }
}

/// Behind a truth three boxes of operand and action, one of them unfit or more.
#[test]
fn actions_and_bounds_in_one_walk() {
    let proof = draft::proof(&[ax2()]).bytes;
    for (boxes, expected) in [
        ([(0, 1), (9, 16), (0, 1)], "refuse 20 at 2"),
        ([(0, 1), (9, 0), (0, 1)], "refuse 20 at 2"),
        ([(0, 16), (9, 1), (0, 1)], "refuse 71 at 1"),
        ([(0, 0), (0, 1), (9, 1)], "refuse 71 at 1"),
        ([(9, 1), (0, 16), (0, 0)], "refuse 20 at 1"),
        ([(0, 1), (1, 1), (3, 99)], "refuse 20 at 3"),
        ([(0, 1), (1, 1), (2, 99)], "refuse 71 at 3"),
        ([(0, 1), (1, 15), (2, 2)], "accept"),
    ] {
        let boxed = boxes.map(|(a, action)| Entry::new(Kind::Box, a, action));
        let entries = [&truths(1)[..], &boxed].concat();
        let claim = draft::claim_written_out(&entries, &[0], |_| true).bytes;
        assert_claim(&claim, &proof, expected);
    }
    // 23 at entry 2, a mu of its own name, comes after 71 at entry 3.
    let unguarded = [Entry::new(Kind::Name, 2, 0), Entry::new(Kind::Mu, 1, 0)];
    let claim = |action| {
        let boxed = [Entry::new(Kind::Box, 0, action)];
        draft::claim(&[&truths(1)[..], &unguarded, &boxed].concat(), &[0]).bytes
    };
    assert_claim(&claim(1), &proof, "refuse 23 at 2");
    assert_claim(&claim(16), &proof, "refuse 71 at 3");
}

#[test]
fn nodes_1_to_1024() {
    for (count, expected) in [(1, "accept"), (1024, "accept"), (1025, "refuse 32 at 4")] {
        let (claim, proof) = extremes::chain(count);
        assert_checked(&claim.bytes, &proof.bytes, expected);
    }
    let (claim, _) = extremes::chain(1);
    assert_checked(&claim.bytes, b"PRF1\x00\x00", "refuse 32 at 4");
}

/// The code count of node 0 is behind its map, rule, principal and first child.
#[test]
fn codes_1_to_24() {
    let (claim, proof) = extremes::weakened(24);
    assert_checked(&claim.bytes, &proof.bytes, "accept");
    let (_, proof) = extremes::weakened(25);
    assert_checked(&claim.bytes, &proof.bytes, "refuse 32 at 12");
    let (claim, proof) = extremes::chain(1);
    let none = with_byte(proof.bytes, 8, 0);
    assert_checked(&claim.bytes, &none, "refuse 32 at 8");
}

#[test]
fn codes_rise_and_are_no_names() {
    let nu = [
        Entry::new(Kind::True, 0, 0),
        Entry::new(Kind::Name, 3, 0),
        Entry::new(Kind::Box, 1, 0),
        Entry::new(Kind::Nu, 2, 0),
    ];
    let claim = draft::claim(&nu, &[0, 3]).bytes;
    let proof = |codes: &[u16]| {
        let mut weakening = DraftNode::new(Rule::W, 7, codes.to_vec());
        weakening.first = 1;
        draft::proof(&[weakening, ax2()]).bytes
    };
    assert_checked(&claim, &proof(&[1, 7]), "accept");
    assert_checked(&claim, &proof(&[7, 1]), "refuse 34 at 15");
    assert_checked(&claim, &proof(&[1, 1, 7]), "refuse 34 at 15");
    assert_checked(&claim, &proof(&[1, 7, 7]), "refuse 34 at 17");
    assert_checked(&claim, &proof(&[1, 2, 7]), "refuse 34 at 15");
    assert_checked(&claim, &proof(&[1, 3, 7]), "refuse 34 at 15");
    assert_checked(&claim, &proof(&[1, 7, 8]), "refuse 34 at 17");
}

/// A proof of 1,024 nodes with the same 24 codes in each, D over D, and the claim
/// of their entries.
fn full(entries: &[Entry], last: Rule) -> (Vec<u8>, Vec<u8>) {
    let members: Vec<u16> = (0..24).collect();
    let codes: Vec<u16> = members.iter().map(|member| 2 * member + 1).collect();
    let mut nodes: Vec<DraftNode> = (1..1024)
        .map(|child| {
            let mut node = DraftNode::new(Rule::D, 0, codes.clone());
            node.first = child;
            node
        })
        .collect();
    nodes.push(DraftNode::new(last, 0, codes));
    let claim = draft::claim(entries, &members).bytes;
    (claim, draft::proof(&nodes).bytes)
}

/// 24,576 codes in all fill the lent codes to the last: an Ax1 that 24 letters do
/// not keep, and an Ax2 that 24 truths do, being one member.
#[test]
fn codes_24_576_in_all() {
    let letters: Vec<Entry> = (0..24).map(|p| Entry::new(Kind::Letter, p, 0)).collect();
    let (claim, proof) = full(&letters, Rule::Ax1);
    assert_eq!(decode(&claim, &proof).codes.len(), 24_576);
    assert_checked(&claim, &proof, "refuse 37 at 1023");
    assert_checked(
        &claim,
        &proof[..proof.len() - 1],
        &format!("refuse 31 at {}", proof.len() - 1),
    );
    let (claim, proof) = full(&truths(24), Rule::Ax2);
    assert_eq!(decode(&claim, &proof).codes.len(), 24_576);
    assert_checked(&claim, &proof, "accept");
}

/// No goals to 16, each of them 1 to 24 members.
#[test]
fn goals_0_to_16() {
    for (goals, members, expected) in [
        (1, 24, "accept"),
        (2, 1, "accept"),
        (16, 1, "accept"),
        (16, 24, "accept"),
        // Behind the opening, the entry count, truth in two bytes and letters in four.
        (17, 24, "refuse 72 at 100"),
        (17, 1, "refuse 72 at 8"),
        (0, 24, "accept"),
        (0, 1, "accept"),
        (16, 25, "refuse 12 at 106"),
        (16, 0, "refuse 12 at 10"),
    ] {
        let (claim, proof) = extremes::many_goals(goals, members);
        assert_claim(&claim.bytes, &proof.bytes, expected);
    }
    let one = draft::goal_claim(&truths(1), &[vec![0]]).bytes;
    let proof = draft::goal_proof(&[0], &[ax2()]).bytes;
    assert_claim(&one, &proof, "accept");
    for count in [17, 255, 256, 257, 65_535u16] {
        let mut claim = one.clone();
        claim[8..10].copy_from_slice(&count.to_le_bytes());
        assert_claim(&claim, &proof, "refuse 72 at 8");
        // Judged as soon as its two bytes are there.
        assert_claim(&claim[..10], &proof, "refuse 72 at 8");
        assert_claim(&claim[..9], &proof, "refuse 11 at 9");
    }
}

/// The count of each goal at its own offset, and members that rise for themselves.
#[test]
fn members_of_each_goal() {
    let proof = draft::goal_proof(&[0, 1], &[ax2(), ax2()]).bytes;
    let claim = |goals: &[Vec<u16>]| draft::goal_claim(&truths(3), goals).bytes;
    // The goal count stands behind six bytes of entries, at 12.
    assert_claim(&claim(&[vec![0], vec![0]]), &proof, "accept");
    assert_claim(&claim(&[vec![2], vec![0, 1]]), &proof, "accept");
    assert_claim(&claim(&[vec![], vec![0]]), &proof, "refuse 12 at 14");
    assert_claim(&claim(&[vec![0], vec![]]), &proof, "refuse 12 at 18");
    assert_claim(&claim(&[vec![0], vec![0; 25]]), &proof, "refuse 12 at 18");
    assert_claim(&claim(&[vec![1, 0], vec![0]]), &proof, "refuse 14 at 18");
    assert_claim(&claim(&[vec![0], vec![1, 1]]), &proof, "refuse 14 at 22");
    assert_claim(&claim(&[vec![0], vec![3]]), &proof, "refuse 14 at 20");
    let more = [&claim(&[vec![0], vec![0]])[..], &[0]].concat();
    assert_claim(&more, &proof, "refuse 11 at 22");
}

/// Roots from 0 to the last node, strictly rising, judged before the nodes.
#[test]
fn roots_below_the_node_count() {
    let claim = |goals| draft::goal_claim(&truths(1), &vec![vec![0]; goals]).bytes;
    let proof = |roots: &[u16], nodes: usize| {
        let file = draft::goal_proof(roots, &vec![ax2(); nodes]);
        file.bytes
    };
    let all: Vec<u16> = (0..16).collect();
    assert_checked(&claim(16), &proof(&all, 16), "accept");
    assert_checked(&claim(16), &proof(&all, 15), "refuse 34 at 36");
    assert_checked(&claim(16), &proof(&all, 17), "refuse 35 at 16");
    assert_checked(&claim(2), &proof(&[1, 2], 3), "refuse 35 at 0");
    assert_checked(&claim(2), &proof(&[0, 0], 2), "refuse 34 at 8");
    assert_checked(&claim(2), &proof(&[1, 0], 2), "refuse 34 at 8");
    assert_checked(&claim(2), &proof(&[0, 2], 2), "refuse 34 at 8");
    assert_checked(&claim(2), &proof(&[2, 3], 2), "refuse 34 at 6");
    assert_checked(&claim(2), &proof(&[0, 65_535], 2), "refuse 34 at 8");
    assert_checked(&claim(2), &proof(&[0, 256], 2), "refuse 34 at 8");
    let unfit = with_byte(proof(&[1, 0], 2), 10, 0xFF);
    assert_checked(&claim(2), &unfit, "refuse 34 at 8");
    assert_checked(
        &claim(2),
        &with_byte(proof(&[0, 1], 2), 10, 0xFF),
        "refuse 33 at 10",
    );
    // No node is below a count of zero.
    assert_checked(&claim(2), &proof(&[0, 1], 0), "refuse 34 at 6");
    assert_checked(&claim(2), b"PRF2\x00\x00", "refuse 31 at 6");
    for length in 6..10 {
        let cut = &proof(&[0, 1], 2)[..length];
        assert_checked(&claim(2), cut, &format!("refuse 31 at {length}"));
    }
}

/// "In the `CLM2` form, zero entries and zero goals are now good", and with them a
/// `PRF2` proof of zero nodes alone.
#[test]
fn entries_goals_and_nodes_from_0() {
    let claim = |entries, goals: &[Vec<u16>]| draft::goal_claim(&truths(entries), goals).bytes;
    let none = draft::goal_proof(&[], &[]).bytes;
    for entries in [0, 1, 255, 256] {
        assert_claim(&claim(entries, &[]), &none, "accept");
        let longer = [&claim(entries, &[])[..], &[0]].concat();
        let expected = format!("refuse 11 at {}", 8 + 2 * entries);
        assert_claim(&longer, &none, &expected);
        for length in 4..claim(entries, &[]).len() {
            let cut = &claim(entries, &[])[..length];
            assert_claim(cut, &none, &format!("refuse 11 at {length}"));
        }
    }
    assert_claim(&claim(257, &[]), &none, "refuse 12 at 4");
    assert_claim(&claim(0, &[vec![0]]), &none, "refuse 14 at 10");
    assert_claim(&claim(0, &[vec![65_535]]), &none, "refuse 14 at 10");
    assert_claim(&claim(0, &[vec![]]), &none, "refuse 12 at 8");
    assert_claim(&claim(0, &[vec![0; 25]]), &none, "refuse 12 at 8");
    assert_claim(&claim(0, &vec![vec![0]; 17]), &none, "refuse 72 at 6");
    assert_claim(&claim(1, &[vec![]]), &none, "refuse 12 at 10");
    // Entries are judged though no goal has them for members.
    let unfit = [Entry::new(Kind::Letter, 32, 0)];
    assert_claim(
        &draft::goal_claim(&unfit, &[]).bytes,
        &none,
        "refuse 20 at 0",
    );
}

/// "well-formed nodes get 35, as node 0 at least is an orphan", at the first bad child
/// number by rising parent, else at node 0.
#[test]
fn nodes_without_goals() {
    let claims = [0, 1].map(|entries| draft::goal_claim(&truths(entries), &[]).bytes);
    let d = |first| DraftNode {
        first,
        ..DraftNode::new(Rule::D, 0, Vec::new())
    };
    let leaf = DraftNode::new(Rule::Ax2, 0, Vec::new());
    for claim in &claims {
        let refused = |nodes: &[DraftNode], expected: &str| {
            assert_checked(claim, &draft::goal_proof(&[], nodes).bytes, expected);
        };
        refused(&[], "accept");
        refused(&[leaf.clone()], "refuse 35 at 0");
        refused(&[d(1), leaf.clone()], "refuse 35 at 0");
        refused(&[d(0)], "refuse 35 at 0");
        refused(&[d(1), d(0)], "refuse 35 at 1");
        refused(&[d(1), d(2)], "refuse 35 at 1");
        refused(&[d(1), d(65_535)], "refuse 35 at 1");
        refused(&[d(2), d(2), leaf.clone()], "refuse 35 at 1");
        refused(&vec![leaf.clone(); 1024], "refuse 35 at 0");
        refused(&vec![leaf.clone(); 1025], "refuse 32 at 4");
    }
    let coded = draft::goal_proof(&[], &[ax2()]).bytes;
    assert_checked(&claims[0], &coded, "refuse 34 at 9");
    assert_checked(&claims[1], &coded, "refuse 35 at 0");
    // No byte may follow a node count of zero: no root stands there.
    assert_checked(&claims[0], b"PRF2\x00\x00\x00\x00", "refuse 31 at 6");
    assert_checked(&claims[0], b"PRF1\x00\x00", "refuse 30 at 0");
}

/// 1,024 nodes in one tree to sixteen.
#[test]
fn nodes_1_to_1024_of_several_goals() {
    for goals in [1, 2, 15, 16] {
        for (nodes, expected) in [
            (goals, "accept"),
            (1024, "accept"),
            (1025, "refuse 32 at 4"),
        ] {
            let (claim, proof) = extremes::chains(goals, nodes);
            assert_checked(&claim.bytes, &proof.bytes, expected);
        }
    }
}

/// "A pair of unlike forms gets 30."
#[test]
fn unlike_forms() {
    let claims = [
        draft::claim(&truths(1), &[0]).bytes,
        draft::goal_claim(&truths(1), &[vec![0]]).bytes,
    ];
    let proofs = [
        draft::proof(&[ax2()]).bytes,
        draft::goal_proof(&[0], &[ax2()]).bytes,
    ];
    for (one, claim) in claims.iter().enumerate() {
        for (other, proof) in proofs.iter().enumerate() {
            let expected = if one == other {
                "accept"
            } else {
                "refuse 30 at 0"
            };
            assert_checked(claim, proof, expected);
        }
        assert_evaluated(claim, &states(1), "accept");
    }
}

/// Two loops; a link that leads past its own root, to a node 0 that would do, is none.
#[test]
fn a_climb_stops_at_the_root() {
    let entries = [
        Entry::new(Kind::Name, 2, 0),
        Entry::new(Kind::Box, 0, 0),
        Entry::new(Kind::Nu, 1, 0),
    ];
    let tree = |start: u16, link: u16| {
        let node = |rule, principal: u16, at: u16, code: u16| DraftNode {
            first: at + 1,
            back: link,
            ..DraftNode::new(rule, principal, vec![code])
        };
        [
            node(Rule::D, 0, start, 5),
            node(Rule::Nu, 5, start + 1, 5),
            node(Rule::Box, 3, start + 2, 3),
            node(Rule::Back, 0, start + 3, 5),
        ]
    };
    let claim = draft::goal_claim(&entries, &[vec![2], vec![2]]).bytes;
    for (link, expected) in [
        (4, "accept"),
        (0, "refuse 38 at 7"),
        (1, "refuse 38 at 7"),
        (5, "refuse 38 at 7"),
        (8, "refuse 38 at 7"),
        (65_535, "refuse 38 at 7"),
    ] {
        let nodes = [tree(0, 0), tree(4, link)].concat();
        let proof = draft::goal_proof(&[0, 4], &nodes).bytes;
        assert_checked(&claim, &proof, expected);
    }
}

/// The longest claims and proofs that pass 10 to 14, 72 and 30 to 34, of one goal and
/// of sixteen: all of their bytes are looked at, and all nodes and codes decoded.
#[test]
fn the_longest_claims_and_proofs() {
    let members: Vec<u16> = (232..256).collect();
    let codes: Vec<u16> = (488..512).collect();
    let roots: Vec<u16> = (1008..1024).collect();
    let nodes = vec![DraftNode::new(Rule::And, 0, codes); 1024];
    let goals = vec![members.clone(); 16];
    let disjunctions = vec![Entry::new(Kind::Or, 0, 0); 256];
    let mut good = disjunctions.clone();
    good[0] = Entry::new(Kind::Letter, 31, 0);
    let pairs = [
        (
            draft::claim(&disjunctions, &members).bytes,
            draft::claim(&good, &members).bytes,
            draft::proof(&nodes).bytes,
        ),
        (
            draft::goal_claim(&disjunctions, &goals).bytes,
            draft::goal_claim(&good, &goals).bytes,
            draft::goal_proof(&roots, &nodes).bytes,
        ),
    ];
    let lengths = pairs
        .each_ref()
        .map(|(claim, _, proof)| (claim.len(), proof.len()));
    let longest = [
        (CLAIM_BYTES, PROOF_BYTES),
        (GOALS_CLAIM_BYTES, GOALS_PROOF_BYTES),
    ];
    assert_eq!(lengths, longest);
    assert_eq!(longest, [(1592, 58_374), (2344, 58_406)]);
    for (claim, good, proof) in &pairs {
        assert_claim(claim, proof, "refuse 20 at 0");
        let longer = [&claim[..], &[0]].concat();
        assert_claim(&longer, proof, &format!("refuse 11 at {}", claim.len()));
        let cut = &claim[..claim.len() - 1];
        assert_claim(cut, proof, &format!("refuse 11 at {}", cut.len()));
        assert_checked(good, proof, "refuse 35 at 0");
        assert_eq!(decode(good, proof).codes.len(), 24_576);
        let longer = [&proof[..], &[0]].concat();
        assert_checked(good, &longer, &format!("refuse 31 at {}", proof.len()));
        let cut = &proof[..proof.len() - 1];
        assert_checked(good, cut, &format!("refuse 31 at {}", cut.len()));
        let last = with_byte(proof.clone(), proof.len() - 1, 0xFF);
        assert_checked(good, &last, &format!("refuse 34 at {}", proof.len() - 2));
    }
}

/// "Bits 5 to 7 are zero"; an entry's map has the bits of its kind alone.
#[test]
fn other_bits_of_a_map() {
    let (claim, proof) = extremes::chain(1);
    for bit in 5..8 {
        let proof = with_byte(proof.bytes.clone(), 6, 0x10 | 1 << bit);
        assert_checked(&claim.bytes, &proof, "refuse 33 at 6");
    }
    for bit in 0..8 {
        let claim = with_byte(claim.bytes.clone(), 6, 1 << bit);
        assert_claim(&claim, &proof.bytes, "refuse 13 at 6");
    }
}

#[test]
fn states_1_to_64() {
    let claim = draft::claim(&truths(1), &[0]).bytes;
    assert_evaluated(&claim, &states(1), "accept");
    assert_evaluated(&claim, &states(64), "accept");
    assert_evaluated(&claim, &states(65), "refuse 62 at 4");
    assert_evaluated(&claim, &states(0), "refuse 62 at 4");
}

/// 64 successors in each of 64 states, and one that is no state.
#[test]
fn successors_64() {
    let claim = draft::claim(&truths(1), &[0]).bytes;
    let model = |last: u8| {
        let mut successors: Vec<u8> = (0..64).collect();
        successors[63] = last;
        let state = DraftState::new(u32::MAX, successors);
        draft::model(&vec![state; 64]).bytes
    };
    assert_evaluated(&claim, &model(63), "accept");
    // Map, mask and count of state 0, and 63 successors, stand before the last.
    assert_evaluated(&claim, &model(64), "refuse 64 at 74");
    assert_evaluated(&claim, &model(62), "refuse 64 at 74");
}

/// The longest model, and one that differs in its last list.
#[test]
fn successors_64_by_16_actions() {
    let claim = draft::claim(&truths(1), &[0]).bytes;
    let model = extremes::longest_model().bytes;
    assert_eq!(model.len(), MODEL_BYTES);
    assert_evaluated(&claim, &model, "accept");
    let longer = [&model[..], &[0]].concat();
    assert_evaluated(&claim, &longer, "refuse 61 at 67013");
    assert_evaluated(&claim, &model[..67_012], "refuse 61 at 67012");
    for last in [64, 62, 0, 255] {
        let model = with_byte(model.clone(), 67_012, last);
        assert_evaluated(&claim, &model, "refuse 64 at 67012");
    }
    // The map of the last state stands 1,047 bytes before the end, its mask, its
    // map of actions and the first count behind it.
    assert_evaluated(
        &claim,
        &with_byte(model.clone(), 65_966, 7),
        "refuse 63 at 65966",
    );
    for (at, width) in [(65_967, 4), (65_971, 2), (65_973, 1), (66_948, 1)] {
        let mut model = model.clone();
        model[at..at + width].fill(0);
        assert_evaluated(&claim, &model, "refuse 63 at 65966");
        let cut = &model[..at + width - 1];
        assert_evaluated(&claim, cut, &format!("refuse 61 at {}", cut.len()));
    }
}
