//! Back leaves: their companions (refusal 38) and the paths between (39).

use crate::proof::{Proof, Rule};
use crate::refusal::Refusal;
use crate::sequent::{in_focus, Sequents};
use crate::tree::Parents;

pub struct Loops<'a> {
    proof: &'a Proof,
    sequents: &'a Sequents,
    parents: &'a Parents,
}

impl<'a> Loops<'a> {
    pub fn new(proof: &'a Proof, sequents: &'a Sequents, parents: &'a Parents) -> Loops<'a> {
        Loops {
            proof,
            sequents,
            parents,
        }
    }

    /// "linked to a proper ancestor of rule 10 with the same sequent". The link
    /// is compared with ancestors before it indexes anything.
    pub fn has_companion(&self, leaf: usize) -> bool {
        let link = usize::from(self.proof.nodes[leaf].back);
        self.is_proper_ancestor(link, leaf)
            && self.proof.nodes[link].rule == Rule::D
            && self.sequents.of(link) == self.sequents.of(leaf)
    }

    fn is_proper_ancestor(&self, link: usize, leaf: usize) -> bool {
        std::iter::successors(self.parents.of(leaf), |&node| self.parents.of(node))
            .take_while(|&node| node >= link)
            .any(|node| node == link)
    }

    /// 39 by rising leaf, when every companion is good.
    pub fn judge_paths(&self) -> Result<(), Refusal> {
        let focus = self.nodes_with_focus();
        for (number, node) in self.proof.nodes.iter().enumerate() {
            if node.rule == Rule::Back && !self.path_holds(number, &focus) {
                return Err(Refusal::new(39, number));
            }
        }
        Ok(())
    }

    fn nodes_with_focus(&self) -> Vec<bool> {
        (0..self.proof.nodes.len())
            .map(|node| self.sequents.of(node).iter().any(|&code| in_focus(code)))
            .collect()
    }

    /// "On the path from that ancestor to the leaf, both ends included, each
    /// sequent has a focused member, no rule is 8 [...], and at least one is 4."
    /// T-02: "rule 9 is now allowed on a loop path; rule 8 is not."
    fn path_holds(&self, leaf: usize, focus: &[bool]) -> bool {
        let companion = usize::from(self.proof.nodes[leaf].back);
        let mut boxed = false;
        let mut at = leaf;
        loop {
            let rule = self.proof.nodes[at].rule;
            if !focus[at] || rule == Rule::F {
                return false;
            }
            boxed |= rule == Rule::Box;
            if at == companion {
                return boxed;
            }
            match self.parents.of(at) {
                Some(parent) => at = parent,
                None => return false,
            }
        }
    }
}
