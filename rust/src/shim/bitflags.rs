//! Sets of named bits.

use ::std::ops::{BitAnd, BitOr, BitXor, Not};

/// A named set of bits.
#[derive(Clone, Copy, Debug)]
pub struct Flag<B> {
    /// The name.
    pub name: &'static str,
    /// The bits.
    pub value: B,
}

impl<B> Flag<B> {
    /// The name.
    pub fn name(&self) -> &'static str {
        self.name
    }

    /// The bits.
    pub fn value(&self) -> &B {
        &self.value
    }
}

/// The number that has the bits.
pub trait Bits:
    Copy + PartialEq + BitAnd<Output = Self> + BitOr<Output = Self> + BitXor<Output = Self> + Not<Output = Self>
{
    /// No bits.
    const EMPTY: Self;
}

macro_rules! bits {
    ($($name:ty),*) => {
        $(impl Bits for $name {
            const EMPTY: $name = 0;
        })*
    };
}

bits! { u8, u16, u32, u64, u128, usize }

/// A set of named bits.
pub trait Flags: Sized + Copy + 'static {
    type Bits: Bits;

    /// The names, and their bits.
    fn flags<'a>() -> &'a [Flag<Self>];

    /// The bits.
    fn bits(&self) -> Self::Bits;

    /// The set of bits, also of those without a name.
    fn from_bits_retain(bits: Self::Bits) -> Self;

    /// No bits.
    fn empty() -> Self {
        Self::from_bits_retain(Self::Bits::EMPTY)
    }

    /// All bits that have names.
    fn all() -> Self {
        let all = Self::flags().iter().fold(Self::Bits::EMPTY, |all, flag| all | flag.value.bits());
        Self::from_bits_retain(all)
    }

    /// The set of bits, if each has a name.
    fn from_bits(bits: Self::Bits) -> Option<Self> {
        let all = Self::all().bits();
        (bits & all == bits).then(|| Self::from_bits_retain(bits))
    }

    /// The set of those bits that have names.
    fn from_bits_truncate(bits: Self::Bits) -> Self {
        Self::from_bits_retain(bits & Self::all().bits())
    }

    /// The bits of a name.
    fn from_name(name: &str) -> Option<Self> {
        Self::flags().iter().find(|flag| flag.name == name).map(|flag| flag.value)
    }

    /// Whether there are no bits.
    fn is_empty(&self) -> bool {
        self.bits() == Self::Bits::EMPTY
    }

    /// Whether the set has all bits that have names.
    fn is_all(&self) -> bool {
        Self::all().bits() | self.bits() == self.bits()
    }

    /// Whether the set has all bits of another.
    fn contains(&self, other: Self) -> bool {
        self.bits() & other.bits() == other.bits()
    }

    /// Whether the set has a bit of another.
    fn intersects(&self, other: Self) -> bool {
        self.bits() & other.bits() != Self::Bits::EMPTY
    }

    /// Adds the bits of another.
    fn insert(&mut self, other: Self) {
        *self = self.union(other);
    }

    /// Removes the bits of another.
    fn remove(&mut self, other: Self) {
        *self = self.difference(other);
    }

    /// Changes the bits of another.
    fn toggle(&mut self, other: Self) {
        *self = self.symmetric_difference(other);
    }

    /// Adds or removes the bits of another.
    fn set(&mut self, other: Self, value: bool) {
        if value {
            self.insert(other);
        } else {
            self.remove(other);
        }
    }

    /// The bits of both.
    fn intersection(self, other: Self) -> Self {
        Self::from_bits_retain(self.bits() & other.bits())
    }

    /// The bits of either.
    fn union(self, other: Self) -> Self {
        Self::from_bits_retain(self.bits() | other.bits())
    }

    /// The bits that another doesn't have.
    fn difference(self, other: Self) -> Self {
        Self::from_bits_retain(self.bits() & !other.bits())
    }

    /// The bits that one of both has.
    fn symmetric_difference(self, other: Self) -> Self {
        Self::from_bits_retain(self.bits() ^ other.bits())
    }

    /// The names of which the set has all bits, in the order of the names. A name whose bits earlier names have
    /// is left out.
    fn iter_names(&self) -> IterNames<Self> {
        IterNames {
            source: *self,
            remaining: *self,
            index: 0,
        }
    }
}

/// The names of a set.
#[derive(Clone, Debug)]
pub struct IterNames<B> {
    source: B,
    remaining: B,
    index: usize,
}

impl<B: Flags> IterNames<B> {
    /// The bits that no name so far has.
    pub fn remaining(&self) -> B {
        self.remaining
    }
}

impl<B: Flags> Iterator for IterNames<B> {
    type Item = (&'static str, B);

    fn next(&mut self) -> Option<(&'static str, B)> {
        while let Some(flag) = B::flags().get(self.index) {
            if self.remaining.is_empty() {
                return None;
            }
            self.index += 1;
            if !flag.name.is_empty() && self.source.contains(flag.value) && self.remaining.intersects(flag.value) {
                self.remaining.remove(flag.value);
                return Some((flag.name, flag.value));
            }
        }
        None
    }
}

/// Declares the constants of a set, the table of their names, and its operators.
#[doc(hidden)]
#[macro_export]
macro_rules! __shim_bitflag_items {
    ($(impl $name:ident: $bits:ty {
        $($(#[$attribute:meta])* const $flag:ident = $value:expr;)*
    })*) => {
        $(
            impl $name {
                $($(#[$attribute])* pub const $flag: $name = $name($value);)*

                pub const FLAGS: &'static [$crate::shim::bitflags::Flag<$name>] = &[
                    $($crate::shim::bitflags::Flag { name: stringify!($flag), value: $name::$flag },)*
                ];
            }

            impl ::std::ops::BitOr for $name {
                type Output = $name;

                fn bitor(self, other: $name) -> $name {
                    $name(self.0 | other.0)
                }
            }

            impl ::std::ops::BitOrAssign for $name {
                fn bitor_assign(&mut self, other: $name) {
                    self.0 |= other.0;
                }
            }

            impl ::std::ops::BitAnd for $name {
                type Output = $name;

                fn bitand(self, other: $name) -> $name {
                    $name(self.0 & other.0)
                }
            }

            impl ::std::ops::BitAndAssign for $name {
                fn bitand_assign(&mut self, other: $name) {
                    self.0 &= other.0;
                }
            }

            impl ::std::ops::BitXor for $name {
                type Output = $name;

                fn bitxor(self, other: $name) -> $name {
                    $name(self.0 ^ other.0)
                }
            }

            impl ::std::ops::Sub for $name {
                type Output = $name;

                fn sub(self, other: $name) -> $name {
                    $name(self.0 & !other.0)
                }
            }

            impl ::std::ops::Not for $name {
                type Output = $name;

                fn not(self) -> $name {
                    $name(!self.0 & (0 $(| $name::$flag.0)*))
                }
            }
        )*
    };
}

pub use __shim_bitflag_items as bitflag_items;
