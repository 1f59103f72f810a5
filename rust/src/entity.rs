//! Numbers of units, registers, slots and values, and places.

use std::fmt;

/// Indices are below this.
pub(crate) const MOST: usize = 1 << 31;

/// Defines numbers with a meaning, as the original's macro of this name does.
macro_rules! entity_def {
    ($($(#[$attribute:meta])* entity $name:ident($prefix:literal);)*) => {
        $(
            $(#[$attribute])*
            #[derive(Clone, Copy, PartialEq, Eq, PartialOrd, Ord, Hash)]
            #[repr(transparent)]
            pub struct $name(pub(crate) u32);

            impl $name {
                /// The one with this index.
                ///
                /// # Panics
                ///
                /// If the index is 2^31 or more. Each below can be given; one
                /// that names nothing is refused when it is used.
                #[inline]
                #[must_use]
                pub const fn new(index: usize) -> Self {
                    assert!(index < MOST, "an index is below 2^31");
                    $name(index as u32)
                }

                /// Its index.
                #[inline]
                #[must_use]
                pub const fn index(self) -> usize {
                    self.0 as usize
                }
            }

            impl fmt::Display for $name {
                fn fmt(&self, f: &mut fmt::Formatter<'_>) -> fmt::Result {
                    write!(f, concat!($prefix, "{}"), self.0)
                }
            }

            impl fmt::Debug for $name {
                fn fmt(&self, f: &mut fmt::Formatter<'_>) -> fmt::Result {
                    fmt::Display::fmt(self, f)
                }
            }
        )*
    };
}

entity_def! {
    /// A register unit of the target.
    entity RegUnit("unit");

    /// A register of the target, memory registers included.
    entity PhysReg("r");

    /// A slot of the function. From its ordinary slots on it is an emergency
    /// slot.
    entity SpillSlot("s");

    /// A value of the function.
    entity Value("%");

    /// A bank of the target: registers of one width, and memory registers beside them.
    entity RegBank("bank");

    /// A class of the target: registers of one bank, and slots if it includes them.
    entity RegClass("class");
}

/// A place, to be matched on.
#[derive(Clone, Copy, Debug, PartialEq, Eq, PartialOrd, Ord, Hash)]
pub enum AllocationKind {
    /// A register.
    PhysReg(PhysReg),
    /// A slot.
    SpillSlot(SpillSlot),
}

/// Where a value lies: a register or a slot.
///
/// ```
/// use parallel_moves::{Allocation, AllocationKind, PhysReg, SpillSlot};
///
/// let place = Allocation::reg(PhysReg::new(3));
/// assert_eq!(place.kind(), AllocationKind::PhysReg(PhysReg::new(3)));
/// assert_eq!(place.to_string(), "r3");
/// assert_eq!(Allocation::spillslot(SpillSlot::new(0)).to_string(), "s0");
/// ```
#[derive(Clone, Copy, PartialEq, Eq, PartialOrd, Ord, Hash)]
#[repr(transparent)]
pub struct Allocation {
    /// Slot s is 2 s, register r is 2 r + 1.
    pub(crate) code: u32,
}

impl Allocation {
    /// The place of this kind.
    #[inline]
    #[must_use]
    pub const fn new(kind: AllocationKind) -> Self {
        match kind {
            AllocationKind::PhysReg(reg) => Allocation::reg(reg),
            AllocationKind::SpillSlot(slot) => Allocation::spillslot(slot),
        }
    }

    /// A register.
    #[inline]
    #[must_use]
    pub const fn reg(reg: PhysReg) -> Self {
        Allocation {
            code: 2 * reg.0 + 1,
        }
    }

    /// A slot.
    #[inline]
    #[must_use]
    pub const fn spillslot(slot: SpillSlot) -> Self {
        Allocation { code: 2 * slot.0 }
    }

    /// The place as an enum.
    #[inline]
    #[must_use]
    pub const fn kind(self) -> AllocationKind {
        if self.code % 2 == 1 {
            AllocationKind::PhysReg(PhysReg(self.code / 2))
        } else {
            AllocationKind::SpillSlot(SpillSlot(self.code / 2))
        }
    }
}

impl From<PhysReg> for Allocation {
    #[inline]
    fn from(reg: PhysReg) -> Self {
        Allocation::reg(reg)
    }
}

impl From<SpillSlot> for Allocation {
    #[inline]
    fn from(slot: SpillSlot) -> Self {
        Allocation::spillslot(slot)
    }
}

impl fmt::Display for Allocation {
    fn fmt(&self, f: &mut fmt::Formatter<'_>) -> fmt::Result {
        match self.kind() {
            AllocationKind::PhysReg(reg) => reg.fmt(f),
            AllocationKind::SpillSlot(slot) => slot.fmt(f),
        }
    }
}

impl fmt::Debug for Allocation {
    fn fmt(&self, f: &mut fmt::Formatter<'_>) -> fmt::Result {
        fmt::Display::fmt(self, f)
    }
}

#[cfg(test)]
mod tests {
    use super::{Allocation, AllocationKind, MOST, PhysReg, SpillSlot};

    #[test]
    fn each_place_has_its_code() {
        for index in [0, 1, 511, 4095, MOST - 1] {
            let (reg, slot) = (PhysReg::new(index), SpillSlot::new(index));
            assert_eq!((reg.index(), slot.index()), (index, index));
            assert_eq!(Allocation::reg(reg).kind(), AllocationKind::PhysReg(reg));
            assert_eq!(
                Allocation::spillslot(slot).kind(),
                AllocationKind::SpillSlot(slot)
            );
            assert_eq!(Allocation::from(reg).code as usize, 2 * index + 1);
            assert_eq!(Allocation::from(slot).code as usize, 2 * index);
        }
    }

    #[test]
    #[should_panic = "an index is below 2^31"]
    fn no_index_is_cut_off() {
        let _ = PhysReg::new(MOST);
    }
}
