//! How often random input had something in it, so that a test fails whose input has none of it.
use std::collections::BTreeMap;

/// How often each thing was met, by what it is.
#[derive(Debug, Default)]
pub struct Coverage(BTreeMap<&'static str, usize>);

impl Coverage {
    pub fn add(&mut self, met: impl IntoIterator<Item = (&'static str, bool)>) {
        for (what, holds) in met {
            *self.0.entry(what).or_default() += usize::from(holds);
        }
    }

    /// Each of them was met so often.
    pub fn has_all(&self, least: usize) {
        assert!(!self.0.is_empty() && self.0.values().all(|&count| count >= least), "{self:?}");
    }
}
