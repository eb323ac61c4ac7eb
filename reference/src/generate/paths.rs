//! The loop paths of a decoded proof.

use crate::proof::{Proof, Rule};
use crate::tree::parents;

/// The nodes from each back leaf up to the proper ancestor that it is linked to,
/// both ends included; none for a leaf linked elsewhere, or if the nodes are no
/// tree.
pub fn loop_paths(proof: &Proof) -> Vec<Vec<usize>> {
    let Ok(parents) = parents(&proof.nodes, proof.roots()) else {
        return Vec::new();
    };
    let leaves = (0..proof.nodes.len()).filter(|&node| proof.nodes[node].rule == Rule::Back);
    leaves
        .filter_map(|leaf| {
            let link = usize::from(proof.nodes[leaf].back);
            let path: Vec<usize> = std::iter::successors(Some(leaf), |&node| parents.of(node))
                .take_while(|&node| node >= link)
                .collect();
            (path.len() > 1 && path.last() == Some(&link)).then_some(path)
        })
        .collect()
}

/// Whether rule 9 stands on a loop path.
pub fn leaves_focus(proof: &Proof) -> bool {
    let mut nodes = loop_paths(proof).into_iter().flatten();
    nodes.any(|node| proof.nodes[node].rule == Rule::U)
}
