//! T-05, sentence by sentence: claims of several goals, and proofs with a tree for
//! each.

use reference::draft::{self, DraftNode};
use reference::generate::extremes::{chains, many_goals};
use reference::generate::{self, Part};
use reference::{check, describe, judge, Claim, Entry, Form, Gate, Kind, Rule};

fn e(kind: Kind, a: u16) -> Entry {
    Entry::new(kind, a, 0)
}

/// The code of an entry in focus.
fn f(entry: u16) -> u16 {
    2 * entry + 1
}

/// Nu of box; a letter and its negation.
fn entries() -> Vec<Entry> {
    vec![
        e(Kind::Name, 2),
        e(Kind::Box, 0),
        e(Kind::Nu, 1),
        e(Kind::Letter, 0),
        e(Kind::Negated, 0),
    ]
}

fn n(rule: Rule, principal: u16, [first, back]: [u16; 2], codes: &[u16]) -> DraftNode {
    let node = DraftNode::new(rule, principal, codes.to_vec());
    DraftNode {
        first,
        back,
        ..node
    }
}

/// The loop of nu of box, and among its nodes the axiom: their roots are 0 and 2.
fn nodes() -> Vec<DraftNode> {
    vec![
        n(Rule::D, 0, [1, 0], &[f(2)]),
        n(Rule::Nu, f(2), [3, 0], &[f(2)]),
        n(Rule::Ax1, 0, [0, 0], &[f(3), f(4)]),
        n(Rule::Box, f(1), [4, 0], &[f(1)]),
        n(Rule::Back, 0, [0, 0], &[f(2)]),
    ]
}

const GOALS: [&[u16]; 2] = [&[2], &[3, 4]];

fn claim(goals: &[&[u16]]) -> Vec<u8> {
    let goals: Vec<Vec<u16>> = goals.iter().map(|goal| goal.to_vec()).collect();
    draft::goal_claim(&entries(), &goals).bytes
}

fn proof(roots: &[u16], nodes: &[DraftNode]) -> Vec<u8> {
    draft::goal_proof(roots, nodes).bytes
}

fn verdict(claim: &[u8], proof: &[u8]) -> String {
    describe(check(claim, proof))
}

/// The two goals with other roots or nodes.
fn judged(roots: &[u16], nodes: &[DraftNode]) -> String {
    verdict(&claim(&GOALS), &proof(roots, nodes))
}

/// The two goals with one node changed.
fn changed(at: usize, change: impl Fn(&mut DraftNode)) -> String {
    let mut nodes = nodes();
    change(&mut nodes[at]);
    judged(&[0, 2], &nodes)
}

#[test]
fn two_goals() {
    assert_eq!(judged(&[0, 2], &nodes()), "accept");
    let bytes = b"CLM2\x05\0\x01\x0a\x02\0\x01\x07\0\0\x01\x09\x01\0\x01\x02\0\0\x01\x03\0\0\
                  \x02\0\x01\0\x02\0\x02\0\x03\0\x04\0";
    assert_eq!(claim(&GOALS), bytes);
    let bytes = b"PRF2\x05\0\0\0\x02\0\x12\x0a\x01\0\x01\x05\0\x13\x06\x05\0\x03\0\x01\x05\0\
                  \x10\0\x02\x07\0\x09\0\x13\x04\x03\0\x04\0\x01\x03\0\x18\x0b\0\0\x01\x05\0";
    assert_eq!(proof(&[0, 2], &nodes()), bytes);
}

/// "72, goal count over 16 [...], judged where it is read, place its offset"; by T-06
/// not zero.
#[test]
fn the_goal_count() {
    for count in [17u16, 18, 255, 256, 257, 0x1000, 65_535] {
        let mut claim = claim(&GOALS);
        claim[26..28].copy_from_slice(&count.to_le_bytes());
        assert_eq!(verdict(&claim, b""), "refuse 72 at 26");
        // Nothing that follows is looked at, and both its bytes must be there.
        assert_eq!(verdict(&claim[..28], b""), "refuse 72 at 26");
        assert_eq!(verdict(&claim[..27], b""), "refuse 11 at 27");
    }
    for (goals, expected) in [(1, "accept"), (16, "accept"), (17, "refuse 72 at 100")] {
        let (claim, proof) = many_goals(goals, 24);
        assert_eq!(verdict(&claim.bytes, &proof.bytes), expected, "{goals}");
    }
    // Nothing may follow a goal count of zero.
    let mut none = claim(&GOALS);
    none[26] = 0;
    assert_eq!(verdict(&none, b""), "refuse 11 at 28");
    assert_eq!(verdict(&none[..28], b""), "refuse 30 at 0");
    assert_eq!(verdict(&none[..27], b""), "refuse 11 at 27");
    // "Judged where it is read": before 20 to 23, behind the entries' maps.
    let mut late = claim(&[&[2][..]; 17]);
    late[8] = 9;
    assert_eq!(verdict(&late, b""), "refuse 72 at 26");
    late[6] = 4;
    assert_eq!(verdict(&late, b""), "refuse 13 at 6");
}

/// "that many member lists": each with its count at its own offset, and members that
/// rise for themselves.
#[test]
fn member_lists() {
    let refused = |goals: &[&[u16]]| verdict(&claim(goals), b"");
    assert_eq!(refused(&[&[3, 4], &[2]]), "refuse 30 at 0");
    assert_eq!(refused(&[&[], &[2]]), "refuse 12 at 28");
    assert_eq!(refused(&[&[2], &[]]), "refuse 12 at 32");
    assert_eq!(refused(&[&[2], &[4, 3]]), "refuse 14 at 36");
    assert_eq!(refused(&[&[2], &[3, 3]]), "refuse 14 at 36");
    assert_eq!(refused(&[&[2], &[0, 3]]), "refuse 14 at 34");
    assert_eq!(refused(&[&[2], &[3, 5]]), "refuse 14 at 36");
    let long: Vec<u16> = (0..25).collect();
    assert_eq!(refused(&[&[2], &long]), "refuse 12 at 32");
    let good = claim(&GOALS);
    for length in 28..good.len() {
        let expected = format!("refuse 11 at {length}");
        assert_eq!(verdict(&good[..length], b""), expected);
    }
    assert_eq!(verdict(&[&good[..], &[0]].concat(), b""), "refuse 11 at 38");
}

/// "a root list that isn't rising or in range gets 34", at the root's offset and
/// before the nodes.
#[test]
fn root_lists() {
    let mut unfit = nodes();
    unfit[0].codes = vec![0];
    for nodes in [nodes(), unfit] {
        assert_eq!(judged(&[2, 0], &nodes), "refuse 34 at 8");
        assert_eq!(judged(&[0, 0], &nodes), "refuse 34 at 8");
        assert_eq!(judged(&[2, 2], &nodes), "refuse 34 at 8");
        assert_eq!(judged(&[0, 5], &nodes), "refuse 34 at 8");
        assert_eq!(judged(&[0, 65_535], &nodes), "refuse 34 at 8");
        assert_eq!(judged(&[5, 2], &nodes), "refuse 34 at 6");
    }
    let good = proof(&[0, 2], &nodes());
    for length in 6..good.len() {
        let cut = verdict(&claim(&GOALS), &good[..length]);
        assert_eq!(cut, format!("refuse 31 at {length}"));
    }
    // The node count stands before them; by T-06 it may be zero, and no root is below.
    assert_eq!(
        judged(&[0, 2], &vec![nodes()[2].clone(); 1025]),
        "refuse 32 at 4"
    );
    assert_eq!(judged(&[0, 2], &[]), "refuse 34 at 6");
}

/// "its nodes form one tree per goal": what is no root is a child once.
#[test]
fn one_tree_per_goal() {
    assert_eq!(judged(&[1, 2], &nodes()), "refuse 35 at 0");
    let mut leaf = nodes();
    leaf[0] = n(Rule::Ax2, 0, [0, 0], &[f(2)]);
    // Node 0 is no root: an orphan, behind all bad child numbers.
    assert_eq!(judged(&[1, 2], &leaf), "refuse 35 at 0");
    leaf[3].first = 3;
    assert_eq!(judged(&[1, 2], &leaf), "refuse 35 at 3");
    let mut more = nodes();
    more.push(n(Rule::Ax1, 0, [0, 0], &[f(3), f(4)]));
    assert_eq!(judged(&[0, 2], &more), "refuse 35 at 5");
    assert_eq!(judged(&[0, 5], &more), "refuse 35 at 2");
    assert_eq!(
        verdict(&claim(&[&[2], &[3, 4], &[3, 4]]), &proof(&[0, 2, 5], &more)),
        "accept"
    );
}

/// "a root named as a child is a bad child number (35)"
#[test]
fn a_root_as_a_child() {
    assert_eq!(changed(1, |node| node.first = 2), "refuse 35 at 1");
    assert_eq!(changed(0, |node| node.first = 2), "refuse 35 at 0");
    assert_eq!(changed(3, |node| node.first = 0), "refuse 35 at 3");
    // And so it is where it would be a child once: the tree of one root is all.
    let path = [
        n(Rule::D, 0, [1, 0], &[f(3), f(4)]),
        n(Rule::Ax1, 0, [0, 0], &[f(3), f(4)]),
    ];
    let both = claim(&[&[3, 4], &[3, 4]]);
    assert_eq!(verdict(&both, &proof(&[0, 1], &path)), "refuse 35 at 0");
    assert_eq!(verdict(&claim(&[&[3, 4]]), &proof(&[0], &path)), "accept");
}

/// "Refusal 36 gives the root's number as its place", by rising root and before any
/// 37.
#[test]
fn a_root_is_its_goal_in_focus() {
    let refused = |goals: &[&[u16]]| verdict(&claim(goals), &proof(&[0, 2], &nodes()));
    assert_eq!(refused(&[&[3, 4], &[2]]), "refuse 36 at 0");
    assert_eq!(refused(&[&[2], &[2]]), "refuse 36 at 2");
    assert_eq!(refused(&[&[2], &[3]]), "refuse 36 at 2");
    assert_eq!(refused(&[&[2, 3], &[3]]), "refuse 36 at 0");
    assert_eq!(changed(2, |node| node.codes = vec![6, 9]), "refuse 36 at 2");
    let mut nodes = nodes();
    nodes[1].principal = f(3);
    assert_eq!(judged(&[0, 2], &nodes), "refuse 37 at 1");
    nodes[2].codes = vec![6, 9];
    assert_eq!(judged(&[0, 2], &nodes), "refuse 36 at 2");
    nodes[0].codes = vec![4];
    assert_eq!(judged(&[0, 2], &nodes), "refuse 36 at 0");
}

/// "A pair of unlike forms gets 30."
#[test]
fn unlike_forms() {
    let one = draft::claim(&entries(), &[3, 4]).bytes;
    let axiom = [n(Rule::Ax1, 0, [0, 0], &[f(3), f(4)])];
    let several = claim(&[&[3, 4]]);
    let proofs = [draft::proof(&axiom).bytes, proof(&[0], &axiom)];
    assert_eq!(verdict(&one, &proofs[0]), "accept");
    assert_eq!(verdict(&one, &proofs[1]), "refuse 30 at 0");
    assert_eq!(verdict(&several, &proofs[0]), "refuse 30 at 0");
    assert_eq!(verdict(&several, &proofs[1]), "accept");
    for opening in [b"PRF0", b"PRF3", b"prf2", b"CLM2", b"MDL2"] {
        let other = [&opening[..], &proofs[1][4..]].concat();
        assert_eq!(verdict(&several, &other), "refuse 30 at 0");
    }
}

/// A loop for each of two goals; both leaves are linked to node 0.
fn two_loops() -> Vec<DraftNode> {
    let tree = |start: u16| {
        [
            n(Rule::D, 0, [start + 1, 0], &[f(2)]),
            n(Rule::Nu, f(2), [start + 2, 0], &[f(2)]),
            n(Rule::Box, f(1), [start + 3, 0], &[f(1)]),
            n(Rule::Back, 0, [0, start], &[f(2)]),
        ]
    };
    [tree(0), tree(4)].concat()
}

/// A link must lead to an ancestor: a climb up a tree stops at its root, though node 0
/// has the sequent and rule 10.
#[test]
fn a_link_into_another_tree() {
    let refused = |change: fn(&mut Vec<DraftNode>)| {
        let mut nodes = two_loops();
        change(&mut nodes);
        verdict(&claim(&[&[2], &[2]]), &proof(&[0, 4], &nodes))
    };
    assert_eq!(refused(|_| {}), "accept");
    assert_eq!(refused(|nodes| nodes[7].back = 0), "refuse 38 at 7");
    assert_eq!(refused(|nodes| nodes[3].back = 4), "refuse 38 at 3");
    assert_eq!(refused(|nodes| nodes[7].back = 65_535), "refuse 38 at 7");
    // Each tree's loop is judged: D, then at once the leaf.
    let short = |nodes: &mut Vec<DraftNode>| {
        nodes.truncate(4);
        nodes.push(n(Rule::D, 0, [5, 0], &[f(2)]));
        nodes.push(n(Rule::Back, 0, [0, 4], &[f(2)]));
    };
    assert_eq!(refused(short), "refuse 39 at 5");
}

/// Up to 1,024 nodes in 16 trees, and 24 members in each of 16 goals.
#[test]
fn limits() {
    for (goals, nodes, expected) in [
        (1, 1024, "accept"),
        (16, 1024, "accept"),
        (16, 16, "accept"),
        (16, 1025, "refuse 32 at 4"),
    ] {
        let (claim, proof) = chains(goals, nodes);
        assert_eq!(verdict(&claim.bytes, &proof.bytes), expected);
    }
    let (claim, proof) = many_goals(16, 24);
    assert_eq!(verdict(&claim.bytes, &proof.bytes), "accept");
    assert_eq!(
        Claim::read(&claim.bytes).expect("a claim").members.len(),
        384
    );
    let (claim, proof) = many_goals(16, 25);
    assert_eq!(verdict(&claim.bytes, &proof.bytes), "refuse 12 at 106");
}

/// 256 entries of six bytes and 16 goals of 24 members, 1,024 nodes with three fields
/// and 24 codes: the longest files that pass 10 to 14, 72 and 30 to 34.
#[test]
fn the_longest_files() {
    let entries = vec![Entry::new(Kind::Or, 0, 0); 256];
    let claim = |entries: &[Entry]| {
        let members: Vec<u16> = (232..256).collect();
        draft::goal_claim(entries, &vec![members; 16]).bytes
    };
    assert_eq!(claim(&entries).len(), 2344);
    assert_eq!(verdict(&claim(&entries), b""), "refuse 20 at 0");
    let longer = [&claim(&entries)[..], &[0]].concat();
    assert_eq!(verdict(&longer, b""), "refuse 11 at 2344");
    let mut entries = entries;
    entries[0] = e(Kind::Letter, 31);
    let codes: Vec<u16> = (488..512).collect();
    let nodes = vec![DraftNode::new(Rule::And, 0, codes); 1024];
    let roots: Vec<u16> = (1008..1024).collect();
    let proof = proof(&roots, &nodes);
    assert_eq!(proof.len(), 58_374 + 32);
    assert_eq!(verdict(&claim(&entries), &proof), "refuse 35 at 0");
    let longer = [&proof[..], &[0]].concat();
    assert_eq!(verdict(&claim(&entries), &longer), "refuse 31 at 58406");
}

/// A pair of one goal in the other form.
fn in_other_form(claim: &[u8], proof: &[u8]) -> Option<(Vec<u8>, Vec<u8>)> {
    let decoded = judge(claim, proof).decoded?;
    match &generate::apart(&decoded)[..] {
        [Part { claim, proof, .. }] => {
            let goal = draft::goal_claim(&decoded.claim.entries, &[decoded.claim.members]);
            let nodes = [b"PRF2", &proof[4..6], &[0, 0], &proof[6..]].concat();
            assert_eq!(claim[..4], *b"CLM1");
            Some((goal.bytes, nodes))
        }
        _ => None,
    }
}

/// With one goal both forms say the same.
#[test]
fn one_goal_in_either_form() {
    let (mut compared, mut accepted) = (0, 0);
    for record in generate::checks(51).take(10_000) {
        if record.form() != Some(Form::One) {
            continue;
        }
        if let Some((claim, proof)) = in_other_form(&record.claim, &record.proof) {
            let other = verdict(&claim, &proof);
            // A link out of the tree is another number there, and refused alike.
            assert_eq!(other, describe(record.answer));
            compared += 1;
            accepted += usize::from(record.answer == 0);
        }
    }
    println!("{compared} of one goal say the same in both forms, {accepted} accepted");
    assert!(compared > 2500 && accepted > 1000);
}

/// What a whole must get of what its goals get, each by itself: 36 by rising root, 37
/// or 38 by rising node, 39 by rising leaf.
fn of_its_parts(parts: &[Part]) -> u32 {
    let refusals = parts.iter().filter_map(|part| {
        let answer = check(&part.claim, &part.proof);
        let (number, place) = (answer >> 16, (answer & 0xffff) as usize);
        let stage = match number {
            0 => return None,
            36 => 36,
            37 | 38 => 37,
            39 => 39,
            _ => panic!("a part is well formed: {}", describe(answer)),
        };
        Some((stage, part.numbers[place], number))
    });
    refusals
        .min()
        .map_or(0, |(_, place, number)| number << 16 | place as u32)
}

/// "Acceptance means each goal is proved": the whole gets what its goals get, each in
/// a file of its own with its tree alone.
#[test]
fn a_claim_gets_what_its_goals_get() {
    let (mut compared, mut accepted, mut interleaved, mut later) = (0, 0, 0, 0);
    for record in generate::goals(52).take(20_000) {
        let Some(decoded) = judge(&record.claim, &record.proof).decoded else {
            continue;
        };
        let parts = generate::apart(&decoded);
        if parts.len() < 2 {
            continue;
        }
        let expected = of_its_parts(&parts);
        assert_eq!(describe(record.answer), describe(expected));
        compared += 1;
        accepted += usize::from(record.answer == 0);
        interleaved += usize::from(generate::interleaved(&decoded));
        let first = check(&parts[0].claim, &parts[0].proof);
        later += usize::from(first == 0 && record.answer != 0);
    }
    println!(
        "{compared} of several goals get what these get, {accepted} accepted, {interleaved} \
         interleaved, {later} refused for a later goal alone"
    );
    assert!(compared > 8000 && accepted > 2500 && interleaved > 3000 && later > 800);
}

/// An accepted claim of several goals is held by the gate under one tag, and its
/// records are those of all trees.
#[test]
fn the_gate_holds_a_claim_of_several_goals() {
    let mut gate = Gate::Open;
    let judgement = gate.present(7, &claim(&GOALS), &proof(&[0, 2], &nodes()));
    assert_eq!((judgement.answer(), gate), (0, Gate::Holding(7)));
    let decoded = judgement.decoded.expect("accepted");
    assert_eq!(decoded.proof.nodes.len(), 5);
    assert_eq!(decoded.proof.roots(), [0, 2]);
    assert_eq!(decoded.claim.goals().collect::<Vec<_>>(), GOALS);
}
