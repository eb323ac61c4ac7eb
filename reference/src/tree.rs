//! The nodes as trees (refusal 35).

use crate::proof::Node;
use crate::refusal::Refusal;

/// The parent of every node; a root stands as its own.
pub struct Parents(Vec<u16>);

/// No node has this number.
const NONE: u16 = u16::MAX;

impl Parents {
    /// A root has none.
    pub fn of(&self, node: usize) -> Option<usize> {
        let parent = usize::from(self.0[node]);
        (parent != node).then_some(parent)
    }
}

/// "Every child is numbered above its parent; every node but [the roots] is a child
/// once." A number used twice is found at its second user, and all child numbers
/// come before any orphan. T-05: "a root named as a child is a bad child number".
/// T-06: without goals "well-formed nodes get 35, as node 0 at least is an orphan".
pub fn parents(nodes: &[Node], roots: &[u16]) -> Result<Parents, Refusal> {
    let mut parents = vec![NONE; nodes.len()];
    for &root in roots {
        parents[usize::from(root)] = root;
    }
    for (number, node) in nodes.iter().enumerate() {
        for child in node.children() {
            match parents.get_mut(child) {
                Some(slot) if child > number && *slot == NONE => *slot = number as u16,
                _ => return Err(Refusal::new(35, number)),
            }
        }
    }
    match parents.iter().position(|&parent| parent == NONE) {
        Some(orphan) => Err(Refusal::new(35, orphan)),
        None => Ok(Parents(parents)),
    }
}
