//! Small changes to a claim of several goals or its proof that tell the goals, their
//! roots and their trees apart.

use super::rng::Rng;
use super::several::Several;
use crate::claim::Kind;
use crate::draft::DraftNode;
use crate::goals::GOALS;
use crate::proof::Rule;

/// One change; some leave the proof as good as it was.
pub fn near_goal(rng: &mut Rng, several: &mut Several) {
    match rng.below(17) {
        0 => swap(rng, &mut several.goals),
        1 => swap(rng, &mut several.roots),
        2 => more_or_less_goals(rng, several),
        3 => change_members(rng, several),
        4..=5 => change_root(rng, several),
        6 => root_moved_down(rng, several),
        7 => root_as_child(rng, several),
        8 => root_in_other_focus(rng, several),
        9 => several.nodes.extend(leaf(rng, several)),
        10 => forget_goal(rng, several),
        11..=13 => link_into_another_tree(rng, several),
        _ => exchange_branches(rng, several),
    }
}

fn swap<T>(rng: &mut Rng, list: &mut [T]) {
    if !list.is_empty() {
        list.swap(rng.below(list.len()), rng.below(list.len()));
    }
}

/// With other goals than there are roots the proof's bytes mean something else; up to
/// 17 goals, and none.
fn more_or_less_goals(rng: &mut Rng, several: &mut Several) {
    let goals = &mut several.goals;
    let last = goals.last().cloned().unwrap_or_default();
    match rng.below(5) {
        0 => drop(goals.pop()),
        1 => goals.push(last),
        2 => drop(several.roots.pop()),
        3 => goals.clear(),
        _ => {
            let count = rng.between(GOALS, GOALS + 1);
            goals.resize(count, last);
            let next = several.nodes.len() as u16;
            let spare = count - several.roots.len().min(count);
            let leaves: Vec<DraftNode> = (0..spare).filter_map(|_| leaf(rng, several)).collect();
            several.roots.extend(next..next + leaves.len() as u16);
            several.nodes.extend(leaves);
        }
    }
}

/// A tree without its goal: its root, mostly node 0, is an orphan. So it is where no
/// other goal is left.
fn forget_goal(rng: &mut Rng, several: &mut Several) {
    if !several.goals.is_empty() && several.goals.len() == several.roots.len() {
        let at = match rng.chance(2, 3) {
            true => 0,
            false => rng.below(several.goals.len()),
        };
        several.goals.remove(at);
        several.roots.remove(at);
    }
}

/// Some node without children, once more.
fn leaf(rng: &mut Rng, several: &Several) -> Option<DraftNode> {
    let leaves: Vec<&DraftNode> = several
        .nodes
        .iter()
        .filter(|node| node.rule.children() == 0)
        .collect();
    rng.pick(&leaves).cloned()
}

/// A goal without members, with too many, with one more or less, or with a name.
fn change_members(rng: &mut Rng, several: &mut Several) {
    let entries = several.entries.len();
    let names: Vec<u16> = (0..entries as u16)
        .filter(|&entry| several.entries[usize::from(entry)].kind == Kind::Name)
        .collect();
    let at = rng.below(several.goals.len());
    let Some(goal) = several.goals.get_mut(at) else {
        return;
    };
    match rng.below(6) {
        0 => goal.clear(),
        1 => *goal = (0..rng.between(23, 26) as u16).collect(),
        2 => drop(goal.pop()),
        3 => goal.extend(rng.pick(&names)),
        4 => goal.push(entries as u16),
        _ => goal.push(rng.below(entries) as u16),
    }
    if rng.chance(4, 5) {
        goal.sort_unstable();
        goal.dedup();
    }
}

/// Any number for a root: that of another node, of the root before or behind, of no
/// node.
fn change_root(rng: &mut Rng, several: &mut Several) {
    let nodes = several.nodes.len();
    let at = rng.below(several.roots.len());
    let Some(&before) = several.roots.get(at) else {
        return;
    };
    several.roots[at] = match rng.below(6) {
        0 => before.wrapping_add(1),
        1 => before.wrapping_sub(1),
        2 => several.roots[at.saturating_sub(1)],
        3 => nodes as u16,
        4 => rng.pick(&[1023, 1024, 32_768, 65_535]).unwrap_or(1024),
        _ => rng.below(nodes) as u16,
    };
}

/// The root's child for the root.
fn root_moved_down(rng: &mut Rng, several: &mut Several) {
    let at = rng.below(several.roots.len());
    let root = several.roots.get(at).map(|&root| usize::from(root));
    if let Some(node) = root.and_then(|root| several.nodes.get(root)) {
        several.roots[at] = node.first;
    }
}

/// A root in the place of a child, mostly of a node that it may be a child of but for
/// being a root.
fn root_as_child(rng: &mut Rng, several: &mut Several) {
    let root = rng.pick(&several.roots).unwrap_or(0);
    let below = match rng.chance(3, 4) {
        true => usize::from(root).min(several.nodes.len()),
        false => several.nodes.len(),
    };
    let parents: Vec<usize> = (0..below)
        .filter(|&at| several.nodes[at].rule.children() > 0)
        .collect();
    if let Some(at) = rng.pick(&parents) {
        let node = &mut several.nodes[at];
        match node.rule == Rule::And && rng.chance(1, 2) {
            true => node.second = root,
            false => node.first = root,
        }
    }
}

fn root_in_other_focus(rng: &mut Rng, several: &mut Several) {
    let root = usize::from(rng.pick(&several.roots).unwrap_or(0));
    if let Some(node) = several.nodes.get_mut(root) {
        let at = rng.below(node.codes.len());
        if let Some(code) = node.codes.get_mut(at) {
            *code ^= 1;
        }
    }
}

/// A back leaf linked to a D of another tree, where there is one to a D with the same
/// codes; or to another root.
fn link_into_another_tree(rng: &mut Rng, several: &mut Several) {
    let trees = several.trees();
    let nodes = &several.nodes;
    let of_rule = |rule: Rule| (0..nodes.len()).filter(move |&at| nodes[at].rule == rule);
    let pairs: Vec<(usize, usize)> = of_rule(Rule::Back)
        .flat_map(|leaf| of_rule(Rule::D).map(move |other| (leaf, other)))
        .filter(|&(leaf, other)| trees[leaf] != trees[other])
        .collect();
    let alike: Vec<(usize, usize)> = pairs
        .iter()
        .copied()
        .filter(|&(leaf, other)| nodes[leaf].codes == nodes[other].codes)
        .collect();
    let found = match rng.chance(3, 4) {
        true => rng.pick(&alike).or(rng.pick(&pairs)),
        false => {
            let leaves: Vec<usize> = of_rule(Rule::Back).collect();
            let root = rng.pick(&several.roots).map(usize::from);
            rng.pick(&leaves).zip(root)
        }
    };
    if let Some((leaf, other)) = found {
        several.nodes[leaf].back = other as u16;
    }
}

/// Two nodes of different trees exchange their first children, where there are some
/// two whose sequents are the same: the rules are then kept, and a back leaf below has
/// lost its ancestors.
fn exchange_branches(rng: &mut Rng, several: &mut Several) {
    let trees = several.trees();
    let nodes = &several.nodes;
    let parents: Vec<usize> = (0..nodes.len())
        .filter(|&at| nodes[at].rule.children() > 0)
        .filter(|&at| usize::from(nodes[at].first) < nodes.len())
        .collect();
    let child = |at: usize| usize::from(nodes[at].first);
    let mut pairs = Vec::new();
    for _ in 0..200 {
        let (Some(one), Some(other)) = (rng.pick(&parents), rng.pick(&parents)) else {
            return;
        };
        if trees[one] != trees[other] && one < child(other) && other < child(one) {
            pairs.push((one, other));
        }
    }
    let alike =
        |&&(one, other): &&(usize, usize)| nodes[child(one)].codes == nodes[child(other)].codes;
    let found = pairs.iter().find(alike).or(pairs.first());
    if let Some(&(one, other)) = found {
        let first = several.nodes[one].first;
        several.nodes[one].first = several.nodes[other].first;
        several.nodes[other].first = first;
    }
}
