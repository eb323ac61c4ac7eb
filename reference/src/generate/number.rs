//! Numbers the nodes of a tree found by search, children above parents but
//! otherwise in any order, and puts a D node above each companion.

use super::rng::Rng;
use super::search::Step;
use crate::draft::DraftNode;
use crate::proof::Rule;

/// How the next step to be numbered is taken from those waiting.
#[derive(Clone, Copy)]
enum Order {
    First,
    Last,
    Any,
}

/// A step waiting for its number, as first or second child of a node.
struct Waiting {
    step: usize,
    parent: Option<usize>,
    second: bool,
}

/// The nodes of the tree below the first step. Without `companions` no D nodes
/// are put in, and back leaves link to the steps themselves.
pub fn number(rng: &mut Rng, steps: &[Step], companions: bool) -> Vec<DraftNode> {
    let order = rng.pick(&[Order::First, Order::Last, Order::Any]);
    let mut nodes = Vec::new();
    let mut starts = vec![0; steps.len()];
    let mut waiting = vec![Waiting {
        step: 0,
        parent: None,
        second: false,
    }];
    while let Some(next) = take(rng, order, &mut waiting) {
        let step = &steps[next.step];
        let top = nodes.len();
        link_parent(&mut nodes, &next);
        starts[next.step] = top as u16;
        if step.companion && companions {
            let mut companion = DraftNode::new(Rule::D, 0, step.sequent.clone());
            companion.first = top as u16 + 1;
            nodes.push(companion);
        }
        let own = nodes.len();
        let mut node = DraftNode::new(step.rule, step.principal, step.sequent.clone());
        node.back = step.link as u16;
        nodes.push(node);
        for (at, &step) in step.children.iter().enumerate() {
            waiting.push(Waiting {
                step,
                parent: Some(own),
                second: at == 1,
            });
        }
    }
    for node in nodes.iter_mut().filter(|node| node.rule == Rule::Back) {
        node.back = starts[usize::from(node.back)];
    }
    nodes
}

fn take(rng: &mut Rng, order: Option<Order>, waiting: &mut Vec<Waiting>) -> Option<Waiting> {
    if waiting.is_empty() {
        return None;
    }
    let at = match order {
        Some(Order::First) => 0,
        Some(Order::Last) => waiting.len() - 1,
        _ => rng.below(waiting.len()),
    };
    Some(waiting.remove(at))
}

fn link_parent(nodes: &mut [DraftNode], child: &Waiting) {
    let number = nodes.len() as u16;
    if let Some(parent) = child.parent.and_then(|parent| nodes.get_mut(parent)) {
        if child.second {
            parent.second = number;
        } else {
            parent.first = number;
        }
    }
}
