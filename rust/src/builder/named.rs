//! Targets that have a name.

use std::sync::LazyLock;

use super::TargetBuilder;
use crate::entity::RegBank;
use crate::{reading, sys};

const SHIPPED: &str = "shipped";
/// It is that of ARM's VFP.
const VFP: &str = "vfp";

impl TargetBuilder {
    /// The target with a name. There is one, `shipped` or `vfp`, the registers of ARM's
    /// VFP:
    ///
    /// | bank | slots | registers | ARM's names | units of each | classes |
    /// |---|---|---|---|---|---|
    /// | 0 | 2^2 bytes | 0 to 31 | s0 to s31 | 1 | 0 and 1 |
    /// | 1 | 2^3 bytes | 32 to 47 | d0 to d15 | 2 | 2 and 3 |
    /// | 2 | 2^4 bytes | 48 to 55 | q0 to q7 | 4 | 4 and 5 |
    ///
    /// The 32 units are in each bank one after the other, so that register 32 has those of
    /// registers 0 and 1. The first class of a bank is its top-level class, with slots, and
    /// the second its stack class; both have all its registers in rising order, and none is
    /// memory.
    ///
    /// ```
    /// use parallel_moves::{JobBuilder, RegBank, PhysReg, Resolver, TargetBuilder};
    ///
    /// let mut job = JobBuilder::on(TargetBuilder::named("vfp").unwrap());
    /// let pair = job.function().value(RegBank::new(1));
    /// job.patch().move_(PhysReg::new(32), PhysReg::new(33), pair);
    /// let answer = Resolver::new().answer(1, &job.bytes().unwrap()).unwrap();
    /// assert_eq!(answer.text(), "patch 1 edits 1 made 0\nM r33 r32 0\n");
    /// assert!(job.to_string().starts_with("target shipped\n"));
    /// ```
    #[must_use]
    pub fn named(name: &str) -> Option<Self> {
        [SHIPPED, VFP].contains(&name).then(shipped)
    }

    /// The name of this target, if it has one: `shipped`.
    #[must_use]
    pub fn name(&self) -> Option<&'static str> {
        let target = shipped();
        let is_it = self.unit_count() == target.unit_count()
            && self.banks == target.banks
            && self.registers == target.registers
            && self.classes == target.classes;
        is_it.then_some(SHIPPED)
    }
}

/// As the library has it, where it is proved to be the one of the papers.
fn shipped() -> TargetBuilder {
    static TARGET: LazyLock<TargetBuilder> = LazyLock::new(|| {
        let target = reading::target(&sys::shipped());
        let mut target = target.expect("its bytes are those of a target");
        // What is added is of the last bank, and there are as many units as the registers name.
        target.units = None;
        target.of_bank(RegBank::new(target.banks.len() - 1));
        target
    });
    TARGET.clone()
}
