//! Records to be written: those of generated claims and proofs, as they are or
//! with something changed, in slices of any length that may be lent.

use super::actions;
use super::empty::lacking;
use super::near_goal::near_goal;
use super::pairs::{self, Proved};
use super::rng::Rng;
use super::several::{among_others, joined, Several};
use crate::claim::{Entry, Kind, ACTIONS};
use crate::draft::DraftNode;
use crate::goals::Form;
use crate::proof::Rule;
use crate::write::{EntryRecord, NodeRecord, Records};

/// Two in three with one or two changes; some leave the records good. Half of them
/// are of the form with several goals, and of these one in eight lacks something.
pub fn records(rng: &mut Rng) -> Records {
    let large = rng.chance(1, 24);
    let mut records = match rng.chance(1, 2) {
        true => {
            let proved = match large {
                true => large_tree(rng),
                false => pairs::any_proved(rng),
            };
            of(Form::One, &Several::alone(proved))
        }
        false => {
            let several = match large {
                true => large_trees(rng),
                false if rng.chance(1, 8) => lacking(rng),
                false => any_several(rng),
            };
            of(Form::Several, &several)
        }
    };
    for _ in 0..rng.below(3) {
        change(rng, &mut records);
    }
    fill_up(rng, &mut records);
    records
}

/// One time in four something is wrong with the goals, the roots or the trees.
fn any_several(rng: &mut Rng) -> Several {
    let proved = pairs::any_proved(rng);
    let mut several = among_others(rng, proved);
    if rng.chance(1, 4) {
        near_goal(rng, &mut several);
    }
    several
}

/// The records of a claim and proof, and nothing beyond them.
fn of(form: Form, several: &Several) -> Records {
    let entries = several.entries.iter().map(entry_record).collect();
    let nodes = several.nodes.iter().map(node_record).collect();
    let codes = several.nodes.iter().flat_map(|node| node.codes.clone());
    let count = |goal: &Vec<u16>| goal.len() as u16;
    Records {
        form: form as u8,
        entries,
        entry_count: several.entries.len(),
        goal_counts: several.goals.iter().map(count).collect(),
        members: several.goals.concat(),
        nodes,
        node_count: several.nodes.len(),
        roots: match form {
            Form::One => Vec::new(),
            Form::Several => several.roots.clone(),
        },
        codes: codes.collect(),
    }
}

/// The field, or 0 where the map lacks its bit.
fn field(map: u8, bit: u8, field: u16) -> u16 {
    field * u16::from(map >> bit & 1)
}

fn entry_record(entry: &Entry) -> EntryRecord {
    let map = entry.map();
    EntryRecord {
        kind: entry.kind as u8,
        a: field(map, 0, entry.a),
        b: field(map, 1, entry.b),
    }
}

fn node_record(node: &DraftNode) -> NodeRecord {
    let map = node.rule.low_bits();
    NodeRecord {
        rule: node.rule as u8,
        principal: field(map, 0, node.principal),
        first: field(map, 1, node.first),
        second: field(map, 2, node.second),
        back: field(map, 3, node.back),
        count: node.codes.len() as u8,
    }
}

/// Counts at their limits or just beyond; nodes of any rule, one below the other,
/// that no rule would let stand.
fn large_tree(rng: &mut Rng) -> Proved {
    let (entries, nodes) = (large_table(rng), rng.between(1000, 1025));
    Proved {
        entries,
        members: rising(rng, 256),
        nodes: path(rng, nodes),
    }
}

/// The same with about as many goals as there may be: a path for each.
fn large_trees(rng: &mut Rng) -> Several {
    let entries = large_table(rng);
    let goals: Vec<Vec<u16>> = (0..rng.between(15, 17)).map(|_| rising(rng, 256)).collect();
    let count = rng.between(1000, 1025);
    let parts = goals.iter().enumerate().map(|(goal, members)| {
        let left = count - goal * (count / goals.len());
        let nodes = match goal + 1 == goals.len() {
            true => left,
            false => count / goals.len(),
        };
        Proved {
            entries: entries.clone(),
            members: members.clone(),
            nodes: path(rng, nodes),
        }
    });
    let parts: Vec<Proved> = parts.collect();
    joined(rng, parts)
}

fn large_table(rng: &mut Rng) -> Vec<Entry> {
    let mut entries = vec![Entry::new(Kind::True, 0, 0)];
    for below in 0..rng.between(254, 256) as u16 {
        let kind = rng.pick(&[Kind::Or, Kind::And, Kind::Box]);
        entries.push(Entry::new(kind.unwrap_or(Kind::Or), below, 0));
    }
    actions::spread(rng, &mut entries);
    entries
}

fn path(rng: &mut Rng, count: usize) -> Vec<DraftNode> {
    let rules = [Rule::W, Rule::D, Rule::F, Rule::Or];
    let mut nodes: Vec<DraftNode> = (1..count as u16)
        .map(|child| {
            let rule = rng.pick(&rules).unwrap_or(Rule::W);
            let mut node = DraftNode::new(rule, rng.below(512) as u16, rising(rng, 508));
            node.first = child;
            node
        })
        .collect();
    nodes.push(DraftNode::new(Rule::Back, 0, rising(rng, 508)));
    nodes
}

/// Up to 24 numbers, often as many.
fn rising(rng: &mut Rng, below: usize) -> Vec<u16> {
    let count = if rng.chance(1, 3) {
        24
    } else {
        rng.between(1, 24)
    };
    let mut list: Vec<u16> = (0..count).map(|_| rng.below(below) as u16).collect();
    list.sort_unstable();
    list.dedup();
    list
}

fn change(rng: &mut Rng, records: &mut Records) {
    match rng.below(20) {
        0 => records.entry_count = other_count(rng, records.entry_count),
        1 => records.node_count = other_count(rng, records.node_count),
        2..=5 => change_entry(rng, records),
        6..=7 => change_goal(rng, records),
        8..=13 => change_node(rng, &mut records.nodes),
        14..=15 => change_code(rng, &mut records.codes),
        16 => records.form = other_form(rng, records.form),
        17..=18 => change_goal_counts(rng, records),
        _ => change_roots(rng, records),
    }
}

/// The other one, or none.
fn other_form(rng: &mut Rng, form: u8) -> u8 {
    match rng.below(4) {
        0 => form ^ 3,
        1 => rng.pick(&[0, 3]).unwrap_or(0),
        2 => form | 1 << rng.between(2, 7),
        _ => rng.word() as u8,
    }
}

/// Counts that add up to another number, or to the same in other goals; too many of
/// them, or none.
fn change_goal_counts(rng: &mut Rng, records: &mut Records) {
    let counts = &mut records.goal_counts;
    let (at, other) = (rng.below(counts.len()), rng.below(counts.len()));
    let long = |counts: &mut Vec<u16>, length| counts.resize(length, 0);
    match rng.below(10) {
        0 => counts.clear(),
        1 => counts.push(0),
        2 => drop(counts.pop()),
        3 => long(counts, rng.between(15, 18)),
        4 if rng.chance(1, 8) => long(counts, 65_536 + counts.len()),
        5..=6 if !counts.is_empty() => {
            // One goal's member becomes another's.
            counts[at] = counts[at].wrapping_sub(1);
            counts[other] = counts[other].wrapping_add(1);
        }
        // Sums that sixteen bits would take for the one it was.
        7 if counts.len() > 1 => counts[..2].iter_mut().for_each(|count| *count ^= 0x8000),
        _ => change_code(rng, counts),
    }
}

/// Too few roots or too many, or one that is another number.
fn change_roots(rng: &mut Rng, records: &mut Records) {
    let nodes = records.node_count;
    let roots = &mut records.roots;
    match rng.below(7) {
        0 => drop(roots.pop()),
        1 => roots.push(nodes as u16),
        2 => roots.insert(0, 0),
        3 => roots.reverse(),
        4 => roots.clear(),
        5 if rng.chance(1, 8) => roots.resize(65_536 + roots.len(), 0),
        _ => {
            let at = rng.below(roots.len());
            if let Some(root) = roots.get_mut(at) {
                *root = match rng.below(3) {
                    0 => nodes as u16,
                    _ => other_number(rng, *root),
                };
            }
        }
    }
}

/// Some with the lowest bits of the count as it was.
fn other_count(rng: &mut Rng, count: usize) -> usize {
    let shift = rng.between(8, usize::BITS as usize - 1);
    match rng.below(8) {
        0 => 0,
        1 => count + 1,
        2 => count.saturating_sub(1),
        3 => rng.pick(&[1, 255, 256, 257, 1023, 1024, 1025]).unwrap_or(1),
        4 => rng.below(count + 1),
        5 => usize::MAX - rng.below(2),
        _ => count | 1 << shift,
    }
}

fn other_number(rng: &mut Rng, number: u16) -> u16 {
    match rng.below(10) {
        0 => 0,
        1 => number.wrapping_add(1),
        2 => number.wrapping_sub(1),
        3 => number ^ 1,
        4 => number.wrapping_add(256),
        5 => 1 << rng.below(16),
        6 => u16::MAX,
        7 => rng.word() as u16,
        _ => rng.below(40) as u16,
    }
}

fn other_byte(rng: &mut Rng, byte: u8) -> u8 {
    match rng.below(6) {
        0 => byte.wrapping_add(1),
        1 => byte.wrapping_sub(1),
        2 => rng.word() as u8,
        3 => rng.between(23, 26) as u8,
        _ => rng.below(13) as u8,
    }
}

fn change_entry(rng: &mut Rng, records: &mut Records) {
    let at = rng.below(records.entries.len());
    let Some(entry) = records.entries.get_mut(at) else {
        return;
    };
    match rng.below(5) {
        0 => entry.kind = other_byte(rng, entry.kind),
        1 => entry.a = other_number(rng, entry.a),
        2 => entry.b = other_number(rng, entry.b),
        _ => change_action(rng, &mut records.entries),
    }
}

/// Another action, or one above 15, of a box or diamond; at times its operand is
/// out of bounds too.
fn change_action(rng: &mut Rng, entries: &mut [EntryRecord]) {
    let modal = [Kind::Diamond, Kind::Box].map(|kind| kind as u8);
    let places: Vec<usize> = (0..entries.len())
        .filter(|&at| modal.contains(&entries[at].kind))
        .collect();
    let Some(at) = rng.pick(&places) else {
        return;
    };
    entries[at].b = match rng.chance(1, 2) {
        true => actions::above(rng),
        false => rng.below(ACTIONS) as u16,
    };
    if rng.chance(1, 4) {
        entries[at].a = at as u16;
    }
}

/// The members of some goal, whose count follows.
fn change_goal(rng: &mut Rng, records: &mut Records) {
    let goal = rng.below(records.goal_counts.len());
    let Some(&count) = records.goal_counts.get(goal) else {
        return;
    };
    let before = records.goal_counts[..goal].iter();
    let start: usize = before.map(|&count| usize::from(count)).sum();
    let end = start + usize::from(count);
    if let Some(list) = records.members.get(start..end) {
        let mut members = list.to_vec();
        change_members(rng, &mut members);
        records.goal_counts[goal] = members.len() as u16;
        records.members.splice(start..end, members);
    }
}

fn change_members(rng: &mut Rng, members: &mut Vec<u16>) {
    let at = rng.below(members.len());
    match rng.below(10) {
        0 => members.clear(),
        1 => members.resize(rng.between(23, 26), 300),
        2 => *members = (0..rng.between(23, 26) as u16).collect(),
        // One that a count of 16 bits would take for the length it was.
        3 if members.len() < 65_536 && rng.chance(1, 4) => {
            members.resize(members.len() + 65_536, 0)
        }
        4 => members.insert(at, rng.below(40) as u16),
        5 => members.reverse(),
        6 => members.truncate(at),
        _ => change_code(rng, members),
    }
}

fn change_node(rng: &mut Rng, nodes: &mut [NodeRecord]) {
    let at = rng.below(nodes.len());
    let Some(node) = nodes.get_mut(at) else {
        return;
    };
    match rng.below(7) {
        0 => node.rule = other_byte(rng, node.rule),
        1 => node.principal = other_number(rng, node.principal),
        2 => node.first = other_number(rng, node.first),
        3 => node.second = other_number(rng, node.second),
        4 => node.back = other_number(rng, node.back),
        _ => node.count = other_byte(rng, node.count),
    }
}

fn change_code(rng: &mut Rng, codes: &mut [u16]) {
    let at = rng.below(codes.len());
    if let Some(code) = codes.get_mut(at) {
        *code = other_number(rng, *code);
    }
}

/// Slices as long as they must be, or longer, with anything beyond the records:
/// what no record has, or what one might have.
fn fill_up(rng: &mut Rng, records: &mut Records) {
    let more = rng.pick(&[0, 0, 1, 300]).unwrap_or(0);
    let mask = rng.pick(&[u64::MAX, 0x0007_0007_0007_0007]).unwrap_or(0);
    let length = |least: usize, given: usize| least.max(given) + more;
    let entries = &mut records.entries;
    entries.resize_with(length(256, entries.len()), || any_entry(rng.word() & mask));
    let nodes = &mut records.nodes;
    nodes.resize_with(length(1024, nodes.len()), || {
        any_node(rng.word() & mask, rng.word() & mask)
    });
    let codes = &mut records.codes;
    codes.resize_with(length(24_576, codes.len()), || (rng.word() & mask) as u16);
}

fn any_entry(word: u64) -> EntryRecord {
    EntryRecord {
        kind: word as u8,
        a: (word >> 16) as u16,
        b: (word >> 32) as u16,
    }
}

fn any_node(word: u64, fields: u64) -> NodeRecord {
    NodeRecord {
        rule: word as u8,
        principal: fields as u16,
        first: (fields >> 16) as u16,
        second: (fields >> 32) as u16,
        back: (fields >> 48) as u16,
        count: (word >> 16) as u8,
    }
}
