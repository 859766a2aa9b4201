//! Classes, pairs of classes and sets of classes.

/// "n from 1 to 128."
pub const MOST_CLASSES: usize = 128;

/// All ordered pairs of n classes, "rows in rising order and then columns".
pub fn pairs(n: usize) -> impl Iterator<Item = (usize, usize)> {
    (0..n).flat_map(move |a| (0..n).map(move |b| (a, b)))
}

/// A set of classes: class a is in it when bit a is set.
#[derive(Clone, Copy, Debug, Default, PartialEq, Eq)]
pub struct Classes(u128);

impl Classes {
    /// The set of this class alone.
    pub fn only(class: usize) -> Classes {
        let place = u32::try_from(class).unwrap_or(u32::MAX);
        Classes(1u128.checked_shl(place).unwrap_or(0))
    }

    pub fn has(self, class: usize) -> bool {
        self.meets(Classes::only(class))
    }

    pub fn with(self, class: usize) -> Classes {
        Classes(self.0 | Classes::only(class).0)
    }

    /// The classes of either set.
    pub fn or(self, other: Classes) -> Classes {
        Classes(self.0 | other.0)
    }

    pub fn without(self, other: Classes) -> Classes {
        Classes(self.0 & !other.0)
    }

    /// Whether the two sets have a class in common.
    pub fn meets(self, other: Classes) -> bool {
        self.0 & other.0 != 0
    }

    /// Whether the other set has all classes of this one.
    pub fn within(self, other: Classes) -> bool {
        self.without(other) == Classes::default()
    }

    /// The classes of the set in rising order.
    pub fn members(self) -> impl Iterator<Item = usize> {
        let mut left = self.0;
        std::iter::from_fn(move || {
            let lowest = left.trailing_zeros();
            left &= left.checked_sub(1)?;
            Some(lowest as usize)
        })
    }
}
