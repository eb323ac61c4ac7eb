//! Small changes to a proof, most of which break one rule and nothing else.

use super::rng::Rng;
use crate::claim::Entry;
use crate::draft::DraftNode;
use crate::proof::Rule;
use crate::sequent::{in_focus, insert, remove};

type Nodes = Vec<DraftNode>;

/// One change; some leave the proof as good as it was.
pub fn near_miss(rng: &mut Rng, nodes: &mut Nodes, entries: &[Entry]) {
    if nodes.is_empty() {
        return;
    }
    match rng.below(24) {
        0 => change_rule(rng, nodes),
        1 => change_rule_alike(rng, nodes),
        2 => change_code(rng, nodes, |rng, codes, _| flip_focus(rng, codes)),
        3 => change_code(rng, nodes, |rng, codes, _| drop_code(rng, codes)),
        4 => change_code(rng, nodes, |rng, codes, _| add_code(rng, codes, entries)),
        5 => change_code(rng, nodes, |_, codes, _| codes.clear()),
        6 => change_code(rng, nodes, |_, codes, other| *codes = other.to_vec()),
        7 => change_principal(rng, nodes),
        8 => change_child(rng, nodes),
        9 => swap_children(rng, nodes),
        10..=11 => change_link(rng, nodes),
        12 => link_across(rng, nodes),
        13 => change_companion(rng, nodes),
        14 => remove_box(rng, nodes),
        15 => remove_any(rng, nodes),
        16 => cut_branch(rng, nodes),
        17 => nodes.extend(orphan(rng, nodes)),
        18..=19 => without_focus(nodes),
        20 => idle_step(rng, nodes, entries),
        _ => focus_change_below_companion(rng, nodes),
    }
}

fn change_rule(rng: &mut Rng, nodes: &mut Nodes) {
    let at = rng.below(nodes.len());
    nodes[at].rule = rng.pick(&Rule::ALL).unwrap_or(Rule::W);
}

/// Another rule with the same fields, so that the tree stays good.
fn change_rule_alike(rng: &mut Rng, nodes: &mut Nodes) {
    let at = rng.below(nodes.len());
    let low_bits = nodes[at].rule.low_bits();
    let alike: Vec<Rule> = Rule::ALL
        .into_iter()
        .filter(|rule| rule.low_bits() == low_bits && *rule != nodes[at].rule)
        .collect();
    if let Some(rule) = rng.pick(&alike) {
        nodes[at].rule = rule;
    }
}

/// Changes one node's codes, given those of another.
fn change_code(rng: &mut Rng, nodes: &mut Nodes, change: impl Fn(&mut Rng, &mut Vec<u16>, &[u16])) {
    let other = nodes[rng.below(nodes.len())].codes.clone();
    let at = rng.below(nodes.len());
    change(rng, &mut nodes[at].codes, &other);
}

fn flip_focus(rng: &mut Rng, codes: &mut Vec<u16>) {
    if let Some(code) = rng.pick(codes) {
        remove(codes, code);
        insert(codes, code ^ 1);
    }
}

fn drop_code(rng: &mut Rng, codes: &mut Vec<u16>) {
    if let Some(code) = rng.pick(codes) {
        remove(codes, code);
    }
}

fn add_code(rng: &mut Rng, codes: &mut Vec<u16>, entries: &[Entry]) {
    insert(codes, rng.below(2 * entries.len()) as u16);
}

fn change_principal(rng: &mut Rng, nodes: &mut Nodes) {
    let at = rng.below(nodes.len());
    let node = &mut nodes[at];
    node.principal = match rng.below(4) {
        0 => node.principal ^ 1,
        1 => rng.pick(&node.codes).unwrap_or(0),
        2 => odd_number(rng),
        _ => node.principal.wrapping_add(2),
    };
}

fn change_child(rng: &mut Rng, nodes: &mut Nodes) {
    let at = rng.below(nodes.len());
    let number = match rng.below(5) {
        0 => odd_number(rng),
        1 => at as u16,
        2 => nodes.len() as u16,
        _ => rng.below(nodes.len()) as u16,
    };
    let node = &mut nodes[at];
    match rng.below(3) {
        0 if node.rule == Rule::And => node.second = node.first,
        1 => node.second = number,
        _ => node.first = number,
    }
}

fn odd_number(rng: &mut Rng) -> u16 {
    rng.pick(&[0, 1, 255, 256, 511, 512, 1023, 1024, 32768, 65534, 65535])
        .unwrap_or(0)
}

fn swap_children(rng: &mut Rng, nodes: &mut Nodes) {
    if let Some(at) = any_of(rng, nodes, |node| node.rule == Rule::And) {
        let node = &mut nodes[at];
        std::mem::swap(&mut node.first, &mut node.second);
    }
}

fn change_link(rng: &mut Rng, nodes: &mut Nodes) {
    let Some(at) = any_of(rng, nodes, |node| node.rule == Rule::Back) else {
        return;
    };
    nodes[at].back = match rng.below(4) {
        0 => odd_number(rng),
        1 => at as u16,
        2 => any_of(rng, nodes, |node| node.rule == Rule::D).unwrap_or(at) as u16,
        _ => rng.below(nodes.len()) as u16,
    };
}

/// Links a leaf to a D node of the same sequent, on whatever branch.
fn link_across(rng: &mut Rng, nodes: &mut Nodes) {
    let Some(at) = any_of(rng, nodes, |node| node.rule == Rule::Back) else {
        return;
    };
    let codes = nodes[at].codes.clone();
    let fits = |node: &DraftNode| node.rule == Rule::D && node.codes == codes;
    if let Some(other) = any_of(rng, nodes, fits) {
        nodes[at].back = other as u16;
    }
}

/// Turns a D node into a weakening of a member added above.
fn change_companion(rng: &mut Rng, nodes: &mut Nodes) {
    if let Some(at) = any_of(rng, nodes, |node| node.rule == Rule::D) {
        let node = &mut nodes[at];
        node.principal = rng.pick(&node.codes).unwrap_or(0);
        node.rule = rng
            .pick(&[Rule::W, Rule::F, Rule::U, Rule::Nu])
            .unwrap_or(Rule::W);
    }
}

fn remove_box(rng: &mut Rng, nodes: &mut Nodes) {
    if let Some(at) = any_of(rng, nodes, |node| node.rule == Rule::Box) {
        splice_out(nodes, at);
    }
}

fn remove_any(rng: &mut Rng, nodes: &mut Nodes) {
    if let Some(at) = any_of(rng, nodes, |node| node.rule.children() == 1) {
        splice_out(nodes, at);
    }
}

/// Puts a leaf in place of a branch.
fn cut_branch(rng: &mut Rng, nodes: &mut Nodes) {
    let at = rng.below(nodes.len());
    let mut gone = vec![false; nodes.len()];
    for number in at..nodes.len() {
        let (first, second) = (nodes[number].first, nodes[number].second);
        if number == at || gone[number] {
            let children = [first, second]
                .into_iter()
                .take(nodes[number].rule.children());
            children.for_each(|child| mark(&mut gone, child));
        }
    }
    nodes[at].rule = rng
        .pick(&[Rule::Ax1, Rule::Ax2, Rule::Back])
        .unwrap_or(Rule::Ax1);
    for number in (0..gone.len()).rev().filter(|&number| gone[number]) {
        drop_node(nodes, number);
    }
}

fn mark(gone: &mut [bool], number: u16) {
    if let Some(slot) = gone.get_mut(usize::from(number)) {
        *slot = true;
    }
}

fn orphan(rng: &mut Rng, nodes: &Nodes) -> Option<DraftNode> {
    let leaf = any_of(rng, nodes, |node| node.rule.children() == 0)?;
    Some(nodes[leaf].clone())
}

/// Takes everything out of focus below a chain of U: the rules still hold
/// wherever F is not used, and every loop is bad.
fn without_focus(nodes: &mut Nodes) {
    let Some(root) = nodes.first().map(|node| node.codes.clone()) else {
        return;
    };
    let mut sequent = root.clone();
    let mut chain = Vec::new();
    for &code in root.iter().filter(|&&code| in_focus(code)) {
        chain.push(DraftNode::new(Rule::U, code, sequent.clone()));
        remove(&mut sequent, code);
        insert(&mut sequent, code ^ 1);
    }
    for node in nodes.iter_mut() {
        node.principal &= !1;
        node.codes.iter_mut().for_each(|code| *code &= !1);
        node.codes.dedup();
    }
    put_above(nodes, chain);
}

/// Puts U and F, or only one of the two, right below a D node.
fn focus_change_below_companion(rng: &mut Rng, nodes: &mut Nodes) {
    let Some(at) = any_of(rng, nodes, |node| node.rule == Rule::D) else {
        return;
    };
    let codes = nodes[at].codes.clone();
    let Some(code) = rng.pick(&codes) else {
        return;
    };
    let mut changed = codes.clone();
    remove(&mut changed, code);
    insert(&mut changed, code ^ 1);
    let (out, back) = if in_focus(code) {
        (Rule::U, Rule::F)
    } else {
        (Rule::F, Rule::U)
    };
    if rng.chance(9, 10) {
        put_below(nodes, at, DraftNode::new(back, code ^ 1, changed));
    }
    put_below(nodes, at, DraftNode::new(out, code, codes));
}

/// Puts in a step that changes nothing: F on a member in focus, U on one out
/// of it, or W of what is no member.
fn idle_step(rng: &mut Rng, nodes: &mut Nodes, entries: &[Entry]) {
    let Some(at) = any_of(rng, nodes, |node| node.rule.children() > 0) else {
        return;
    };
    let Some(child) = nodes.get(usize::from(nodes[at].first)) else {
        return;
    };
    let codes = child.codes.clone();
    let code = rng.below(2 * entries.len()) as u16;
    if rng.chance(1, 3) && !codes.contains(&code) {
        put_below(nodes, at, DraftNode::new(Rule::W, code, codes));
    } else if let Some(code) = rng.pick(&codes) {
        let rule = if in_focus(code) { Rule::F } else { Rule::U };
        put_below(nodes, at, DraftNode::new(rule, code, codes));
    }
}

fn any_of(rng: &mut Rng, nodes: &[DraftNode], fits: impl Fn(&DraftNode) -> bool) -> Option<usize> {
    let found: Vec<usize> = (0..nodes.len()).filter(|&at| fits(&nodes[at])).collect();
    rng.pick(&found)
}

/// Puts a chain of nodes with one child each above the root.
pub fn put_above(nodes: &mut Nodes, mut chain: Nodes) {
    let count = chain.len() as u16;
    for (number, node) in chain.iter_mut().enumerate() {
        node.first = number as u16 + 1;
    }
    renumber(nodes, |number| number.saturating_add(count));
    nodes.splice(0..0, chain);
}

/// Puts a node between a node and its first child.
fn put_below(nodes: &mut Nodes, at: usize, mut node: DraftNode) {
    let own = at as u16 + 1;
    renumber(nodes, |number| {
        if number >= own {
            number.saturating_add(1)
        } else {
            number
        }
    });
    node.first = nodes[at].first;
    nodes[at].first = own;
    nodes.insert(at + 1, node);
}

/// Takes a node with one child out of the tree.
fn splice_out(nodes: &mut Nodes, at: usize) {
    let child = nodes[at].first;
    let own = at as u16;
    renumber(nodes, |number| if number == own { child } else { number });
    drop_node(nodes, at);
}

/// Takes a node out of the list and closes the gap in the numbering.
fn drop_node(nodes: &mut Nodes, at: usize) {
    nodes.remove(at);
    let own = at as u16;
    renumber(
        nodes,
        |number| if number > own { number - 1 } else { number },
    );
}

fn renumber(nodes: &mut Nodes, new: impl Fn(u16) -> u16) {
    for node in nodes {
        node.first = new(node.first);
        node.second = new(node.second);
        node.back = new(node.back);
    }
}
