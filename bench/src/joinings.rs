//! The halves that are joined.

use reference::generate::extremes;
use reference::Files;

pub struct Joining {
    pub name: &'static str,
    pub entry: u16,
    pub first: Files,
    pub second: Files,
}

/// Halves that give the largest claim and proof but for a node, over a full table; such
/// over a table that takes long to number; and the least that have a rest.
pub fn all() -> Vec<Joining> {
    let joining = |name, (entry, [first, second]): (u16, [Files; 2])| Joining {
        name,
        entry,
        first,
        second,
    };
    vec![
        joining(
            "two halves of 511 nodes",
            extremes::halves(256, 23, [511, 511]),
        ),
        joining(
            "the same over 80 names in a chain",
            extremes::halves_over(extremes::crowd_of(253, 80), &[252], [511, 511]),
        ),
        joining("two small halves", extremes::halves(4, 1, [2, 3])),
    ]
}
