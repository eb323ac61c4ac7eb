//! The files that are timed.

use crate::growth::Family;
use reference::draft::{self, DraftNode};
use reference::{corpus, Decoded, Entry, Kind, Rule};
use std::path::Path;

pub struct Case {
    pub name: &'static str,
    pub claim: Vec<u8>,
    pub proof: Vec<u8>,
}

pub fn checks() -> Vec<Case> {
    let records = vectors();
    let accepted = |r: &&corpus::CheckRecord| r.answer == 0;
    let largest = records
        .iter()
        .filter(accepted)
        .max_by_key(|r| r.proof.len());
    let small = records.iter().find(accepted);
    let early = records.iter().find(|r| r.answer == 13 << 16 | 6);
    let named = |name, record: Option<&corpus::CheckRecord>| {
        let record = record.expect("the vectors have one");
        Case {
            name,
            claim: record.claim.clone(),
            proof: record.proof.clone(),
        }
    };
    let largest = named("largest accepted proof", largest);
    let goals = six_goals(&largest);
    vec![
        largest,
        goals,
        many_loops(4, 120).1,
        named("small proof", small),
        no_goals(),
        named("early refusal", early),
    ]
}

fn vectors() -> Vec<corpus::CheckRecord> {
    let file = Path::new(env!("CARGO_MANIFEST_DIR")).join("../tests/vectors/base/check.bin");
    corpus::read_checks(&std::fs::read(file).expect("the vectors")).expect("whole records")
}

/// No entries, no goals and no nodes: what a call costs before it has read anything.
fn no_goals() -> Case {
    Case {
        name: "no goals",
        claim: draft::goal_claim(&[], &[]).bytes,
        proof: draft::goal_proof(&[], &[]).bytes,
    }
}

/// The largest proof with its goal six times, in as many nodes. It leaves focus and
/// comes back to it 404 times, and then goes round one loop. The first tree has that
/// loop; the others share the steps out of focus and back, drop all members but the
/// first, which is nu of box, and go round that one's loop.
fn six_goals(largest: &Case) -> Case {
    let decoded = reference::judge(&largest.claim, &largest.proof).decoded;
    let Decoded { claim, proof } = decoded.expect("the largest is accepted");
    let mut rest = proof.codes.as_slice();
    let nodes = proof.nodes.iter().map(|node| {
        let (codes, others) = rest.split_at(node.count.into());
        rest = others;
        DraftNode {
            rule: node.rule,
            principal: node.principal,
            first: node.first,
            second: node.second,
            back: node.back,
            codes: codes.to_vec(),
        }
    });
    let nodes: Vec<DraftNode> = nodes.collect();
    let d = nodes.iter().position(|node| node.rule == Rule::D);
    let (steps, round) = nodes.split_at(d.expect("a loop begins"));
    let sequent = &round[0].codes;
    let mut trees = vec![[&round[..1], &steps[..2], round].concat()];
    for _ in 1..6 {
        let mut tree = steps[..134].to_vec();
        for count in (2..=sequent.len()).rev() {
            let dropped = sequent[count - 1];
            tree.push(DraftNode::new(Rule::W, dropped, sequent[..count].to_vec()));
        }
        tree.extend(round_of_box(&claim.entries, sequent[0]));
        trees.push(tree);
    }
    let roots = trees.iter().scan(0, |next, tree| {
        let root = *next;
        *next += tree.len() as u16;
        Some(root)
    });
    let roots: Vec<u16> = roots.collect();
    let mut nodes = trees.concat();
    number(&mut nodes);
    assert_eq!(nodes.len(), 1024);
    let case = Case {
        name: "the largest proof as six goals",
        claim: draft::goal_claim(&claim.entries, &vec![claim.members.clone(); 6]).bytes,
        proof: draft::goal_proof(&roots, &nodes).bytes,
    };
    assert_eq!(reference::check(&case.claim, &case.proof), 0);
    case
}

/// D, nu, box and back, for the code of a nu of box over its own name.
fn round_of_box(entries: &[Entry], code: u16) -> [DraftNode; 4] {
    let boxed = focused(entries[usize::from(code / 2)].a);
    let node = |rule, code| DraftNode::new(rule, code, vec![code]);
    [
        node(Rule::D, code),
        node(Rule::Nu, code),
        node(Rule::Box, boxed),
        node(Rule::Back, code),
    ]
}

/// Each node's child is the next one, and each leaf is linked to the last D before it.
fn number(nodes: &mut [DraftNode]) {
    let mut last = 0;
    for (number, node) in nodes.iter_mut().enumerate() {
        node.first = number as u16 + 1;
        match node.rule {
            Rule::D => last = number as u16,
            Rule::Back => node.back = last,
            _ => {}
        }
    }
}

/// Families by how many nodes: a tree of eleven levels that gets wider, and one
/// path that gets longer.
pub fn growing() -> Vec<Family<Case>> {
    let levels = [
        [1, 1, 2, 4, 8, 8, 8, 8, 8, 8, 8],
        [1, 1, 2, 4, 8, 16, 32, 32, 32, 64, 64],
        [1, 1, 2, 4, 8, 16, 32, 64, 128, 256, 512],
    ];
    let path = [(1, 30), (1, 126), (7, 72)];
    vec![
        Family::new("nodes in eleven levels", &levels, |widths| {
            wide_tree(&widths)
        }),
        Family::new("back leaves on one path", &path, |(rounds, width)| {
            many_loops(rounds, width)
        }),
    ]
}

/// A tree with that many nodes on each level: a level that doubles is of
/// conjunctions of one formula with itself, any other of boxes, the last of truths.
fn wide_tree(widths: &[u16]) -> (usize, Case) {
    let depth = widths.len() as u16 - 1;
    let doubles = |level: usize| widths[level + 1] == 2 * widths[level];
    let mut entries = vec![Entry::new(Kind::True, 0, 0)];
    for level in (0..widths.len() - 1).rev() {
        let below = entries.len() as u16 - 1;
        entries.push(match doubles(level) {
            true => Entry::new(Kind::And, below, below),
            false => Entry::new(Kind::Box, below, 0),
        });
    }
    let mut nodes = Vec::new();
    let mut next = 0;
    for (level, &width) in widths.iter().enumerate() {
        let code = focused(depth - level as u16);
        let rule = match widths.get(level + 1) {
            None => Rule::Ax2,
            Some(_) if doubles(level) => Rule::And,
            Some(_) => Rule::Box,
        };
        next += width;
        for number in 0..width {
            let mut node = DraftNode::new(rule, code, vec![code]);
            let children = rule.children() as u16;
            node.first = next + children * number;
            node.second = node.first + 1;
            nodes.push(node);
        }
    }
    case("a wide tree", &entries, depth, &nodes)
}

/// nu X. box (X and (X and ...)): each conjunction sends one child back to the
/// first node and the other further down one long path, which goes through all
/// conjunctions that many times.
fn many_loops(rounds: usize, width: u16) -> (usize, Case) {
    let fixpoint = width + 2;
    let mut entries = vec![Entry::new(Kind::Name, fixpoint, 0)];
    entries.extend((0..width).map(|below| Entry::new(Kind::And, 0, below)));
    entries.push(Entry::new(Kind::Box, width, 0));
    entries.push(Entry::new(Kind::Nu, width + 1, 0));
    let node = |rule, entry| DraftNode::new(rule, focused(entry), vec![focused(entry)]);
    let mut nodes = vec![node(Rule::D, fixpoint)];
    for _ in 0..rounds {
        nodes.push(node(Rule::Nu, fixpoint));
        nodes.push(node(Rule::Box, width + 1));
        for conjunction in (1..=width).rev() {
            nodes.push(node(Rule::And, conjunction));
            nodes.push(node(Rule::Back, fixpoint));
        }
    }
    nodes.push(node(Rule::Back, fixpoint));
    link(&mut nodes);
    case(
        "long path with many back leaves",
        &entries,
        fixpoint,
        &nodes,
    )
}

fn focused(entry: u16) -> u16 {
    2 * entry + 1
}

/// An accepted case, with the number of its nodes.
fn case(name: &'static str, entries: &[Entry], member: u16, nodes: &[DraftNode]) -> (usize, Case) {
    let case = Case {
        name,
        claim: draft::claim(entries, &[member]).bytes,
        proof: draft::proof(nodes).bytes,
    };
    assert_eq!(reference::check(&case.claim, &case.proof), 0, "{name}");
    (nodes.len(), case)
}

/// A conjunction's first child is the back leaf after it, its second the node
/// after that; any other node's child is the next node.
fn link(nodes: &mut [DraftNode]) {
    for (number, node) in nodes.iter_mut().enumerate() {
        let next = number as u16 + 1;
        node.first = next;
        if node.rule == Rule::And {
            node.second = next + 1;
        }
    }
}
