//! Families of cases by size: by which power of the size the times grow.

use crate::timing::Row;

pub struct Family<T> {
    pub name: &'static str,
    pub cases: Vec<(usize, T)>,
}

impl<T> Family<T> {
    pub fn new<S: Copy>(
        name: &'static str,
        sizes: &[S],
        case: impl Fn(S) -> (usize, T),
    ) -> Family<T> {
        Family {
            name,
            cases: sizes.iter().map(|&size| case(size)).collect(),
        }
    }

    /// A row for each size, then the exponents between the first and the last.
    pub fn print(&self, timed: impl Fn(&T) -> Row) {
        let rows: Vec<(usize, Row)> = self
            .cases
            .iter()
            .map(|(size, case)| (*size, timed(case)))
            .collect();
        for (size, row) in &rows {
            println!("{size:<34} {row}");
        }
        if let [(least, first), .., (most, last)] = &rows[..] {
            let (gate, reference) = last.exponents(first, *most as f64 / *least as f64);
            println!("{:<34} {gate:>12.2} {reference:>12.2}", "exponent");
        }
    }
}
