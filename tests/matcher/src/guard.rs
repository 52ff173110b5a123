//! Conditions on counters.

use crate::state::Place;

/// A range that a counter must lie in, by the rank of its repeat.
#[derive(Clone, Copy, Debug)]
pub struct Range {
    pub rank: usize,
    pub least: u32,
    pub most: u32,
}

/// A condition on counters; one that is not named is free.
#[derive(Clone, Debug)]
pub struct Guard(pub Vec<Range>);

impl Guard {
    pub fn holds(&self, place: &Place) -> bool {
        self.0
            .iter()
            .all(|range| (range.least..=range.most).contains(&place.counts[range.rank]))
    }

    /// Whether some counters meet both. Counters are reached independently
    /// of each other, so each is looked at by itself.
    pub fn meets(&self, other: &Guard) -> bool {
        self.0.iter().chain(&other.0).all(|range| {
            let same = |two: &&Range| two.rank == range.rank;
            let both = || self.0.iter().chain(&other.0).filter(same);
            let least = both().map(|range| range.least).max();
            let most = both().map(|range| range.most).min();
            least <= most
        })
    }
}
