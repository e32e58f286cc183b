//! Sums that are the same in every order.

use std::fmt;

/// Sums over replies.
#[derive(Default)]
pub struct Tally {
    replies: u64,
    failures: u64,
    places: u64,
}

impl Tally {
    /// Adds a reply: how many of its packet's events failed, and its place.
    pub fn add(&mut self, failures: usize, place: u64) {
        self.replies += 1;
        self.failures += failures as u64;
        self.places += place;
    }

    /// Adds the sums over other replies.
    pub fn join(&mut self, other: &Tally) {
        self.replies += other.replies;
        self.failures += other.failures;
        self.places += other.places;
    }
}

impl fmt::Display for Tally {
    fn fmt(&self, out: &mut fmt::Formatter<'_>) -> fmt::Result {
        let Tally {
            replies,
            failures,
            places,
        } = self;
        write!(out, "replies {replies} failures {failures} places {places}")
    }
}
