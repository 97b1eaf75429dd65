//! Features of files, and sets of them.

use crate::inner;
use std::fmt;

pub use crate::inner::Feature;

/// The features of a file. Feature n is bit n mod 64 of element n div 64.
#[derive(Clone, Copy, PartialEq, Eq, Hash)]
pub struct FeatureSet(pub [u64; 4]);

impl FeatureSet {
    /// The number of features that fit in a set, from 0 on.
    pub const MAX_BITS: u32 = inner::FeatureSet::MAX_BITS;

    fn inner(&self) -> inner::FeatureSet {
        inner::FeatureSet(self.0)
    }

    /// Returns the number of features.
    pub fn len(&self) -> usize {
        self.inner().len()
    }

    /// Returns whether the set is empty.
    pub fn is_empty(&self) -> bool {
        self.inner().is_empty()
    }

    /// Returns the features in ascending order, which is that of their sections in a file.
    pub fn iter(&self) -> FeatureSetIter {
        FeatureSetIter(self.inner().iter())
    }

    /// Returns whether the set contains a feature. It contains none from 256 on.
    #[inline]
    pub fn has_feature(&self, feature: Feature) -> bool {
        self.inner().has_feature(feature)
    }
}

impl fmt::Debug for FeatureSet {
    fn fmt(&self, f: &mut fmt::Formatter<'_>) -> fmt::Result {
        f.debug_set().entries(self.iter()).finish()
    }
}

/// The features of a set in ascending order, from [`FeatureSet::iter`].
pub struct FeatureSetIter(inner::FeatureSetIter);

impl Iterator for FeatureSetIter {
    type Item = Feature;

    fn next(&mut self) -> Option<Feature> {
        self.0.next()
    }
}
