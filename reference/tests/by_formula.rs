//! Members are compared by formula: each place that compares or removes one, on
//! tables in which formulas stand twice. A step that is kept is told by the place
//! of the refusal: it lies further down.

use reference::draft::{self, DraftNode};
use reference::Kind::{And, Box, Diamond, False, Letter, Mu, Name, Negated, Nu, Or, True};
use reference::{describe, judge, Entry, Judgement, Kind, Rule};

fn e(kind: Kind, a: u16, b: u16) -> Entry {
    Entry::new(kind, a, b)
}

/// The code of an entry in focus.
fn f(entry: u16) -> u16 {
    2 * entry + 1
}

/// The code of an entry out of focus.
fn u(entry: u16) -> u16 {
    2 * entry
}

fn n(rule: Rule, principal: u16, codes: &[u16]) -> DraftNode {
    DraftNode::new(rule, principal, codes.to_vec())
}

/// A leaf that is no axiom.
fn end(codes: &[u16]) -> DraftNode {
    n(Rule::Ax1, 0, codes)
}

/// Each node's first child is the next one, its second the one after that. Back
/// leaves are linked to the root.
fn judged(entries: &[Entry], members: &[u16], nodes: &[DraftNode]) -> Judgement {
    let linked = (1..).zip(nodes).map(|(next, node)| DraftNode {
        first: next,
        second: next + 1,
        ..node.clone()
    });
    let claim = draft::claim(entries, members).bytes;
    let proof = draft::proof(&linked.collect::<Vec<_>>()).bytes;
    judge(&claim, &proof)
}

fn verdict(entries: &[Entry], members: &[u16], nodes: &[DraftNode]) -> String {
    describe(judged(entries, members, nodes).answer())
}

/// Letter 0 twice, its negation, truth twice, and truth or itself.
fn leaves() -> [Entry; 6] {
    let letters = [e(Letter, 0, 0), e(Letter, 0, 0), e(Negated, 0, 0)];
    let truths = [e(True, 0, 0), e(True, 0, 0), e(Or, 3, 4)];
    [letters, truths].concat().try_into().expect("six")
}

#[test]
fn the_root_is_the_claim_under_any_numbers() {
    let root = |members: &[u16], codes: &[u16]| {
        let nodes = [n(Rule::Ax2, 0, codes)];
        verdict(&leaves(), members, &nodes)
    };
    assert_eq!(root(&[3], &[f(4)]), "accept");
    assert_eq!(root(&[3, 4], &[f(4)]), "accept");
    assert_eq!(root(&[4], &[f(3), f(4)]), "accept");
    assert_eq!(root(&[3], &[u(4)]), "refuse 36 at 0");
    assert_eq!(root(&[3, 4], &[f(3), u(4)]), "refuse 36 at 0");
    assert_eq!(root(&[3], &[f(0)]), "refuse 36 at 0");
    assert_eq!(root(&[0, 3], &[f(3), f(4)]), "refuse 36 at 0");
}

#[test]
fn ax1_is_two_members() {
    let all = [f(0), f(1), f(2)];
    let ax1 = |nodes: &[DraftNode]| verdict(&leaves(), &[0, 1, 2], nodes);
    assert_eq!(ax1(&[n(Rule::Ax1, 0, &all)]), "accept");
    assert_eq!(ax1(&[n(Rule::Ax1, 0, &[f(1), f(2)])]), "accept");
    let unfocused = [n(Rule::U, f(0), &all), n(Rule::Ax1, 0, &[u(0), u(1), f(2)])];
    assert_eq!(ax1(&unfocused), "accept");
    let one = [n(Rule::Ax1, 0, &[f(0), f(1)])];
    assert_eq!(verdict(&leaves(), &[0, 1], &one), "refuse 37 at 0");
}

#[test]
fn ax2_is_one_member() {
    let one = [n(Rule::Ax2, 0, &[f(3), f(4)])];
    assert_eq!(verdict(&leaves(), &[3, 4], &one), "accept");
    let two = [n(Rule::Ax2, 0, &[f(0), f(3), f(4)])];
    assert_eq!(verdict(&leaves(), &[0, 3, 4], &two), "refuse 37 at 0");
}

/// In both focuses a formula is two members.
#[test]
fn axioms_in_both_focuses() {
    let ax2 = [
        n(Rule::U, f(5), &[f(3), f(5)]),
        n(Rule::Or, u(5), &[f(3), u(5)]),
        n(Rule::Ax2, 0, &[f(3), u(4)]),
    ];
    assert_eq!(verdict(&leaves(), &[3, 5], &ax2), "refuse 37 at 2");
    let mut letters = leaves();
    letters[5] = e(Or, 0, 1);
    let ax1 = [
        n(Rule::U, f(5), &[f(0), f(2), f(5)]),
        n(Rule::Or, u(5), &[f(0), f(2), u(5)]),
        n(Rule::Ax1, 0, &[f(0), u(1), f(2)]),
    ];
    assert_eq!(verdict(&letters, &[0, 2, 5], &ax1), "refuse 37 at 2");
}

/// W in a sequent of letter 0 and truth.
fn weakened(principal: u16, child: &[u16]) -> String {
    let nodes = [n(Rule::W, principal, &[f(0), f(3)]), n(Rule::Ax2, 0, child)];
    verdict(&leaves(), &[0, 3], &nodes)
}

#[test]
fn the_principal_may_stand_there_under_another_number() {
    assert_eq!(weakened(f(0), &[f(3)]), "accept");
    assert_eq!(weakened(f(1), &[f(4)]), "accept");
    assert_eq!(weakened(u(1), &[f(3)]), "refuse 37 at 0");
    assert_eq!(weakened(f(2), &[f(3)]), "refuse 37 at 0");
}

#[test]
fn a_principal_out_of_range_is_none() {
    for more in [12, 512, 1024, 32_768, 65_024] {
        let principal = f(0).wrapping_add(more);
        assert_eq!(weakened(principal, &[f(3)]), "refuse 37 at 0", "{more}");
    }
    let entries = [e(False, 0, 0), e(True, 0, 0)];
    let nodes = |principal| {
        [
            n(Rule::W, principal, &[f(0), f(1)]),
            n(Rule::Ax2, 0, &[f(1)]),
        ]
    };
    assert_eq!(verdict(&entries, &[0, 1], &nodes(f(0))), "accept");
    for none in [f(2), 513, 65_535] {
        assert_eq!(verdict(&entries, &[0, 1], &nodes(none)), "refuse 37 at 0");
    }
}

/// A fixpoint x of box x, box of it, and the same with other names.
fn fixpoints(kind: Kind) -> Vec<Entry> {
    let one = [e(Name, 2, 0), e(Box, 0, 0), e(kind, 1, 0), e(Box, 2, 0)];
    let other = [e(Name, 6, 0), e(Box, 4, 0), e(kind, 5, 0)];
    [&one[..], &other].concat()
}

#[test]
fn a_name_is_no_principal() {
    let nodes = |principal| [n(Rule::Nu, principal, &[f(2)]), end(&[f(1)])];
    let unfolded = |principal| verdict(&fixpoints(Nu), &[2], &nodes(principal));
    assert_eq!(unfolded(f(2)), "refuse 37 at 1");
    assert_eq!(unfolded(f(6)), "refuse 37 at 1");
    assert_eq!(unfolded(f(0)), "refuse 37 at 0");
    assert_eq!(unfolded(f(4)), "refuse 37 at 0");
}

#[test]
fn all_codes_of_the_principal_leave_the_side() {
    let nodes = |child: &[u16]| [n(Rule::W, f(0), &[f(0), f(1), f(3)]), end(child)];
    let side = |child: &[u16]| verdict(&leaves(), &[0, 3], &nodes(child));
    assert_eq!(side(&[f(3)]), "refuse 37 at 1");
    assert_eq!(side(&[f(1), f(3)]), "refuse 37 at 0");
    assert_eq!(side(&[f(0), f(3)]), "refuse 37 at 0");
}

#[test]
fn the_other_focus_stays_in_the_side() {
    let side = |principal, child: &[u16]| {
        let nodes = [
            n(Rule::U, f(5), &[f(3), f(5)]),
            n(Rule::Or, u(5), &[f(3), u(5)]),
            n(Rule::W, principal, &[u(3), f(3), u(4)]),
            n(Rule::Ax2, 0, child),
        ];
        verdict(&leaves(), &[3, 5], &nodes)
    };
    assert_eq!(side(f(4), &[u(3)]), "accept");
    assert_eq!(side(u(4), &[f(3), f(4)]), "accept");
    assert_eq!(side(u(4), &[f(3), u(4)]), "refuse 37 at 2");
}

/// One step from a claim of one member, and a leaf that is no axiom.
fn step(entries: &[Entry], rule: Rule, entry: u16, child: &[u16]) -> String {
    let nodes = [n(rule, f(entry), &[f(entry)]), end(child)];
    verdict(entries, &[entry], &nodes)
}

#[test]
fn or_adds_both_targets_under_any_numbers() {
    let or = |child: &[u16]| step(&leaves(), Rule::Or, 5, child);
    for child in [&[f(3), f(4)][..], &[f(3)], &[f(4)]] {
        assert_eq!(or(child), "refuse 37 at 1");
    }
    assert_eq!(or(&[u(4)]), "refuse 37 at 0");
    assert_eq!(or(&[f(3), u(4)]), "refuse 37 at 0");
    assert_eq!(or(&[f(3), f(5)]), "refuse 37 at 0");
}

#[test]
fn what_is_added_may_be_there_already() {
    let nodes = [n(Rule::Or, f(5), &[f(4), f(5)]), n(Rule::Ax2, 0, &[f(3)])];
    assert_eq!(verdict(&leaves(), &[4, 5], &nodes), "accept");
}

/// Truth and letter 0, twice.
#[test]
fn and_adds_one_target_for_each_child() {
    let two = [
        e(True, 0, 0),
        e(Letter, 0, 0),
        e(True, 0, 0),
        e(Letter, 0, 0),
    ];
    let entries = [&two[..], &[e(And, 0, 1), e(And, 2, 3)]].concat();
    let and = |first: &[u16], second: &[u16]| {
        let truth = n(Rule::Ax2, 0, first);
        let nodes = [n(Rule::And, f(4), &[f(5)]), truth, end(second)];
        verdict(&entries, &[4, 5], &nodes)
    };
    assert_eq!(and(&[f(0)], &[f(1)]), "refuse 37 at 2");
    assert_eq!(and(&[f(2)], &[f(3)]), "refuse 37 at 2");
    assert_eq!(and(&[f(0), f(2)], &[f(1), f(3)]), "refuse 37 at 2");
    assert_eq!(and(&[f(2)], &[f(2)]), "refuse 37 at 0");
    assert_eq!(and(&[f(3)], &[f(1)]), "refuse 37 at 0");
}

/// Box x by itself is box of the fixpoint.
#[test]
fn mu_and_nu_add_the_body_under_any_number() {
    for body in [1, 3, 5] {
        let mu = |child: &[u16]| step(&fixpoints(Mu), Rule::Mu, 2, child);
        assert_eq!(mu(&[u(body)]), "refuse 37 at 1");
        assert_eq!(mu(&[f(body)]), "refuse 37 at 0");
        let nu = |child: &[u16]| step(&fixpoints(Nu), Rule::Nu, 2, child);
        assert_eq!(nu(&[f(body)]), "refuse 37 at 1");
        assert_eq!(nu(&[u(body)]), "refuse 37 at 0");
    }
}

/// The body is box x; the fixpoint is not the same formula, though unfolded it is.
#[test]
fn a_fixpoint_is_not_its_unfolding() {
    for fixpoint in [2, 6] {
        let child = [f(fixpoint)];
        assert_eq!(step(&fixpoints(Nu), Rule::Nu, 2, &child), "refuse 37 at 0");
    }
}

#[test]
fn u_and_f_change_the_focus_under_any_number() {
    let changed = |out: u16, back: &[u16]| {
        let nodes = [
            n(Rule::U, f(0), &[f(1)]),
            n(Rule::F, u(1), &[out]),
            end(back),
        ];
        verdict(&leaves(), &[0], &nodes)
    };
    assert_eq!(changed(u(0), &[f(0)]), "refuse 37 at 2");
    assert_eq!(changed(u(1), &[f(0), f(1)]), "refuse 37 at 2");
    assert_eq!(changed(u(1), &[u(0), f(1)]), "refuse 37 at 1");
    assert_eq!(changed(f(0), &[f(0)]), "refuse 37 at 0");
    let twice = |child: &[u16]| {
        let nodes = [n(Rule::U, f(0), &[f(0), f(1)]), end(child)];
        verdict(&leaves(), &[0], &nodes)
    };
    assert_eq!(twice(&[u(1)]), "refuse 37 at 1");
    assert_eq!(twice(&[u(0), f(1)]), "refuse 37 at 0");
}

#[test]
fn d_keeps_the_sequent_under_any_numbers() {
    let d = |child: &[u16]| step(&leaves(), Rule::D, 0, child);
    assert_eq!(d(&[f(1)]), "refuse 37 at 1");
    assert_eq!(d(&[f(0), f(1)]), "refuse 37 at 1");
    assert_eq!(d(&[u(1)]), "refuse 37 at 0");
    assert_eq!(d(&[u(0), f(1)]), "refuse 37 at 0");
}

/// Truth and letter 0 twice, a box and a diamond of each.
fn modalities() -> Vec<Entry> {
    let two = [
        e(True, 0, 0),
        e(Letter, 0, 0),
        e(True, 0, 0),
        e(Letter, 0, 0),
    ];
    let boxes = (0..4).map(|at| e(Box, at, 0));
    let diamonds = (0..4).map(|at| e(Diamond, at, 0));
    two.into_iter().chain(boxes).chain(diamonds).collect()
}

/// Box truth is entry 4 and 6, diamond letter 0 is 9 and 11.
#[test]
fn a_box_alike_is_the_principal() {
    let boxed = |codes: &[u16], child: &[u16]| {
        let members: Vec<u16> = codes.iter().map(|code| code / 2).collect();
        let nodes = [n(Rule::Box, f(4), codes), end(child)];
        verdict(&modalities(), &members, &nodes)
    };
    assert_eq!(boxed(&[f(4), f(6)], &[f(0)]), "refuse 37 at 1");
    assert_eq!(boxed(&[f(4), f(6)], &[f(0), f(2)]), "refuse 37 at 1");
    assert_eq!(boxed(&[f(6), f(9), f(11)], &[f(0), f(3)]), "refuse 37 at 1");
    assert_eq!(boxed(&[f(6), f(9)], &[f(0)]), "refuse 37 at 0");
    assert_eq!(boxed(&[f(4), f(5)], &[f(0), f(1)]), "refuse 37 at 0");
    assert_eq!(boxed(&[f(5)], &[f(1)]), "refuse 37 at 0");
}

/// U takes both copies out of focus; or of the two makes another pair in it.
#[test]
fn a_box_in_the_other_focus_is_another() {
    let mut entries = modalities();
    entries.push(e(Or, 4, 6));
    let steps = |sequent: &[u16], child: &[u16]| {
        let nodes = [
            n(Rule::U, f(4), &[f(6), f(12)]),
            n(Rule::Or, f(12), &[u(6), f(12)]),
            n(Rule::Box, f(4), sequent),
            end(child),
        ];
        verdict(&entries, &[4, 12], &nodes)
    };
    assert_eq!(steps(&[f(4), u(6)], &[f(0), u(2)]), "refuse 37 at 2");
    assert_eq!(steps(&[u(4), f(6)], &[f(0)]), "refuse 37 at 2");
}

/// Truth and letter 0, box truth by action 3, diamonds of the letter by actions 3,
/// 3 again, 4 and 0.
fn by_actions() -> Vec<Entry> {
    let leaves = [e(True, 0, 0), e(Letter, 0, 0), e(Box, 0, 3)];
    let diamonds = [3, 3, 4, 0].map(|action| e(Diamond, 1, action));
    leaves.into_iter().chain(diamonds).collect()
}

/// "The box rule needs diamonds of the principal's own action."
#[test]
fn a_box_goes_with_diamonds_of_its_action() {
    let boxed = |codes: &[u16], child: &[u16]| {
        let members: Vec<u16> = codes.iter().map(|code| code / 2).collect();
        let nodes = [n(Rule::Box, f(2), codes), end(child)];
        verdict(&by_actions(), &members, &nodes)
    };
    assert_eq!(boxed(&[f(2)], &[f(0)]), "refuse 37 at 1");
    assert_eq!(boxed(&[f(2), f(3)], &[f(0), f(1)]), "refuse 37 at 1");
    assert_eq!(boxed(&[f(2), f(3), f(4)], &[f(0), f(1)]), "refuse 37 at 1");
    for other in [5, 6] {
        let codes = [f(2), f(other)];
        assert_eq!(boxed(&codes, &[f(0), f(1)]), "refuse 37 at 0");
        assert_eq!(boxed(&codes, &[f(0)]), "refuse 37 at 0");
        let codes = [f(2), f(3), f(other)];
        assert_eq!(boxed(&codes, &[f(0), f(1)]), "refuse 37 at 0");
    }
}

/// Boxes that differ in the action are two formulas: one stays when the other is
/// taken away, and beside the other it is another.
#[test]
fn boxes_of_two_actions_are_two_members() {
    let mut entries = vec![e(True, 0, 0), e(Box, 0, 1), e(Box, 0, 2), e(Box, 0, 1)];
    entries.push(e(Or, 1, 2));
    let weakened = |child: &[u16]| {
        let nodes = [n(Rule::W, f(3), &[f(1), f(2)]), end(child)];
        verdict(&entries, &[1, 2], &nodes)
    };
    assert_eq!(weakened(&[f(2)]), "refuse 37 at 1");
    assert_eq!(weakened(&[f(1)]), "refuse 37 at 0");
    let boxed = |codes: &[u16]| {
        let members: Vec<u16> = codes.iter().map(|code| code / 2).collect();
        let nodes = [n(Rule::Box, f(1), codes), n(Rule::Ax2, 0, &[f(0)])];
        verdict(&entries, &members, &nodes)
    };
    assert_eq!(boxed(&[f(1), f(3)]), "accept");
    assert_eq!(boxed(&[f(1), f(2)]), "refuse 37 at 0");
    let root = |codes: &[u16]| verdict(&entries, &[1], &[end(codes)]);
    assert_eq!(root(&[f(3)]), "refuse 37 at 0");
    assert_eq!(root(&[f(2)]), "refuse 36 at 0");
    let or = |child: &[u16]| step(&entries, Rule::Or, 4, child);
    assert_eq!(or(&[f(2), f(3)]), "refuse 37 at 1");
    assert_eq!(or(&[f(1), f(3)]), "refuse 37 at 0");
}

/// nu x box x: D, nu, box, and a leaf linked to the D.
fn looped(codes: [u16; 4]) -> String {
    let [d, nu, boxed, leaf] = codes;
    let nodes = [
        n(Rule::D, 0, &[d]),
        n(Rule::Nu, f(2), &[nu]),
        n(Rule::Box, f(1), &[boxed]),
        n(Rule::Back, 0, &[leaf]),
    ];
    verdict(&fixpoints(Nu), &[2], &nodes)
}

#[test]
fn a_leaf_has_its_companion_s_sequent_under_any_numbers() {
    assert_eq!(looped([f(2), f(2), f(1), f(2)]), "accept");
    assert_eq!(looped([f(2), f(6), f(3), f(6)]), "accept");
    assert_eq!(looped([f(6), f(2), f(5), f(2)]), "accept");
    assert_eq!(looped([f(6), f(2), f(5), f(3)]), "refuse 37 at 2");
}

/// nu x box x and nu y nu x box x, then one formula in both focuses.
#[test]
fn a_leaf_with_other_members_is_refused() {
    let entries = [e(Name, 2, 0), e(Box, 0, 0), e(Nu, 1, 0), e(Nu, 2, 0)];
    let nodes = [
        n(Rule::D, 0, &[f(3)]),
        n(Rule::Nu, f(3), &[f(3)]),
        n(Rule::Nu, f(2), &[f(2)]),
        n(Rule::Box, f(1), &[f(1)]),
        n(Rule::Back, 0, &[f(2)]),
    ];
    assert_eq!(verdict(&entries, &[3], &nodes), "refuse 38 at 4");
    let unfocused = [
        n(Rule::D, 0, &[f(0), f(2)]),
        n(Rule::U, f(1), &[f(0), f(2)]),
        n(Rule::Back, 0, &[u(0), f(2)]),
    ];
    assert_eq!(verdict(&leaves(), &[0, 2], &unfocused), "refuse 38 at 2");
}

#[test]
fn records_keep_the_codes_of_the_file() {
    let judgement = judged(&leaves(), &[3, 4], &[n(Rule::Ax2, 0, &[f(3), f(4)])]);
    assert_eq!(judgement.answer(), 0);
    let decoded = judgement.decoded.expect("accepted");
    assert_eq!(decoded.claim.members, [3, 4]);
    assert_eq!(decoded.proof.codes, [f(3), f(4)]);
}

/// "The strictly rising codes remain a rule of the file."
#[test]
fn codes_rise_by_their_numbers() {
    let root = |codes: &[u16]| verdict(&leaves(), &[3], &[n(Rule::Ax2, 0, codes)]);
    assert_eq!(root(&[f(3), f(4)]), "accept");
    assert_eq!(root(&[f(4), f(3)]), "refuse 34 at 11");
    let claim = |members: &[u16]| verdict(&leaves(), members, &[n(Rule::Ax2, 0, &[f(3)])]);
    assert_eq!(claim(&[3, 4]), "accept");
    assert_eq!(claim(&[4, 3]), "refuse 14 at 32");
}
