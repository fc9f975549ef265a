//! The situations that scripts and cards reach, and the demand that one is among them.

use std::collections::BTreeSet;

/// What was reached.
#[derive(Default)]
pub struct Reached(pub BTreeSet<String>);

impl Reached {
    pub fn add(&mut self, what: impl Into<String>) {
        self.0.insert(what.into());
    }

    pub fn add_if(&mut self, is_reached: bool, what: &str) {
        if is_reached {
            self.add(what);
        }
    }

    pub fn demand(&self, what: &str) {
        assert!(self.0.contains(what), "not reached: {what}");
    }

    #[allow(dead_code)] // each test is a crate of its own, and not every one has a list of them
    pub fn demand_each(&self, demanded: &[&str]) {
        demanded.iter().for_each(|what| self.demand(what));
    }
}
