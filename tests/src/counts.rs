//! 'The count': plan, loops and the bound.

use crate::parts::Sizes;

/// How step 3 found the board.
#[derive(Clone, Copy, PartialEq, Eq, Hash, Debug)]
pub enum Entry {
    Open,
    Protected,
}

/// "plan = 69 + 10 × IMO + N × (26 + 5L / 4) + M × (24 + 5PB / 4), and from PROTECTED
/// 26 + 10 × IMO more".
pub const fn plan(sizes: &Sizes, entry: Entry) -> u64 {
    let imo = sizes.part.imo as u64;
    let row = 26 + 5 * sizes.row_bytes() as u64 / 4;
    let locks = 24 + 5 * sizes.lock_bytes() as u64 / 4;
    let open = 69 + 10 * imo + sizes.rows() as u64 * row + sizes.macros as u64 * locks;
    match entry {
        Entry::Open => open,
        Entry::Protected => open + 26 + 10 * imo,
    }
}

/// "loops = 5 + IMO + 2N + 2M, and from PROTECTED 2 + IMO more".
pub const fn loops(sizes: &Sizes, entry: Entry) -> u64 {
    let imo = sizes.part.imo as u64;
    let open = 5 + imo + 2 * sizes.rows() as u64 + 2 * sizes.macros as u64;
    match entry {
        Entry::Open => open,
        Entry::Protected => open + 2 + imo,
    }
}

/// "with A acquisitions (1, or 2 from PROTECTED)".
pub const fn acquisitions(entry: Entry) -> u64 {
    match entry {
        Entry::Open => 1,
        Entry::Protected => 2,
    }
}

/// "A report comes within 17 × (plan + 29997 × loops + 29 × A) transfers".
pub const fn bound(sizes: &Sizes, entry: Entry) -> u64 {
    17 * (plan(sizes, entry) + 29_997 * loops(sizes, entry) + 29 * acquisitions(entry))
}

#[cfg(test)]
mod tests {
    use super::*;
    use crate::parts::SIZES;

    #[test]
    fn p11_part_1() {
        assert_eq!(plan(&Sizes::of(1, 1).unwrap(), Entry::Open), 27_279);
    }

    #[test]
    fn p12_part_3() {
        assert_eq!(plan(&Sizes::of(3, 2).unwrap(), Entry::Open), 190_741);
    }

    #[test]
    fn largest_bound() {
        let bounds = SIZES.map(|(p, m)| bound(&Sizes::of(p, m).unwrap(), Entry::Protected));
        assert_eq!(bounds.into_iter().max(), Some(1_053_229_016));
        assert_eq!(bounds[3], 1_053_229_016);
    }
}
