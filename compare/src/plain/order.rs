//! Ordering: a patch's entries, and the order in which they are emitted.

use original::function::{Function, RematCost, Value};
use original::internal::parallel_moves::Edit;
use original::output::Allocation;
use original::reginfo::{RegClass, RegInfo};

use super::{Diversion, Kept, Remat, Run, Stage};
use crate::number::Refused;
use crate::patch::Entry;

impl Run<'_> {
    // The entries.

    fn add_all(&mut self) {
        for entry in &self.patch.entries {
            match *entry {
                Entry::Move {
                    source,
                    dest,
                    value,
                } => self.add_move(source, dest, value),
                Entry::Remat { dest, value } => {
                    let remat = self.values.can_rematerialize(value);
                    let (_, class) = remat.expect("11 is tested before");
                    self.add_remat(dest, value, class);
                }
            }
        }
    }

    /// "A move becomes a rebuild if its value can be rebuilt and either its
    /// source is memory, or the cost is `CheaperThanMove` and the destination is
    /// in the rebuild class. A move equal to a kept one in source, destination and
    /// value is dropped. Others are kept."
    fn add_move(&mut self, source: Allocation, dest: Allocation, value: Value) {
        if let Some((cost, class)) = self.values.can_rematerialize(value) {
            let cheap = cost == RematCost::CheaperThanMove && self.is_in(class, dest);
            if self.is_memory(source) || cheap {
                self.add_remat(dest, value, class);
                return;
            }
        }
        let same = |kept: &Kept| (kept.source, kept.dest, kept.value) == (source, dest, value);
        if self.moves.iter().any(same) {
            return;
        }
        for unit in self.units(source) {
            self.sources[unit] = true;
        }
        for unit in self.units(dest) {
            self.writers[unit] = Some(self.moves.len());
        }
        self.moves.push(Kept {
            source,
            dest,
            value,
            stage: Stage::Unvisited,
            carried: Vec::new(),
        });
    }

    /// "A rebuild whose destination is not in the class needs a scratch."
    fn add_remat(&mut self, dest: Allocation, value: Value, class: RegClass) {
        let remat = Remat { dest, value, class };
        if self.is_in(class, dest) {
            self.without_scratch.push(remat);
        } else {
            self.with_scratch.push(remat);
        }
    }

    // `resolve`.

    /// "Rebuilds without scratch, then those with, then two passes over the kept
    /// moves, the first skipping roots with memory at either end."
    pub(super) fn resolve(&mut self) -> Result<(), Refused> {
        self.add_all();
        for remat in std::mem::take(&mut self.without_scratch) {
            self.remat_into(remat.dest, remat.value);
            self.make_available(remat.dest, true);
        }
        for remat in std::mem::take(&mut self.with_scratch) {
            self.remat_by_scratch(&remat)?;
            self.make_available(remat.dest, true);
        }
        for skipping in [true, false] {
            for root in 0..self.moves.len() {
                let Kept { source, dest, .. } = self.moves[root];
                let memory = self.is_memory(source) || self.is_memory(dest);
                if self.moves[root].stage == Stage::Unvisited && !(skipping && memory) {
                    self.visit(root)?;
                }
            }
        }
        // "The end of a patch brings back all held. Of several at the end the
        // older comes back first."
        if self.held.len() == 2 {
            self.note("at the end", "both");
        }
        self.bring_back(|_, _| true);
        Ok(())
    }

    fn remat_into(&mut self, to: Allocation, value: Value) {
        self.edits.push(Edit::Rematerialize { to, value });
    }

    /// "A rebuild with scratch brings back the evicted register if it overlaps the
    /// destination, searches the rebuild class, emits scratch to destination,
    /// bringing nothing back for the scratch (both memory: through a second
    /// scratch, of the stack class), then the rebuild into the scratch, and puts a
    /// slot scratch back." The original leaves the scratch as available as it was.
    fn remat_by_scratch(&mut self, remat: &Remat) -> Result<(), Refused> {
        let &Remat { dest, value, class } = remat;
        self.bring_back_from("rebuilt into", dest);
        let scratch = self.search(class, false)?;
        self.copy(scratch, dest, value)?;
        self.remat_into(scratch, value);
        self.put_back_slot(scratch, value);
        Ok(())
    }

    /// "In depth, a move visits the unvisited writers of its source units, last
    /// unit first, and each writer is a move again. It then closes. If a writer of
    /// its source is still open, its value is diverted. The move is emitted, from
    /// the scratch if diverted. Then the values it carries each lose one, in the
    /// order received."
    fn visit(&mut self, this: usize) -> Result<(), Refused> {
        let Kept {
            source,
            dest,
            value,
            ..
        } = self.moves[this];
        self.moves[this].stage = Stage::Open;
        for unit in self.units(source).into_iter().rev() {
            if let Some(writer) = self.writers[unit]
                && self.moves[writer].stage == Stage::Unvisited
            {
                self.visit(writer)?;
            }
        }
        self.moves[this].stage = Stage::Closed;

        let mut open = Vec::new();
        for unit in self.units(source) {
            if let Some(writer) = self.writers[unit]
                && self.moves[writer].stage == Stage::Open
            {
                open.push(writer);
            }
        }
        let from = if open.is_empty() {
            source
        } else {
            self.divert(value, source, &open)?
        };
        self.emit(from, dest, value)?;
        for carried in std::mem::take(&mut self.moves[this].carried) {
            self.let_go(carried)?;
        }
        Ok(())
    }

    /// "A live diversion of that value keeps its scratch and its first source,
    /// otherwise the top-level class is searched as for a cycle and the register
    /// found becomes unavailable. Each open writer not yet carrying the value
    /// carries it and adds one to its count." The scratch.
    fn divert(
        &mut self,
        value: Value,
        source: Allocation,
        open: &[usize],
    ) -> Result<Allocation, Refused> {
        if !self.diversions.contains_key(&value.index()) {
            let bank = self.values.value_bank(value);
            let scratch = self.search(self.target.top_level_class(bank), true)?;
            self.make_available(scratch, false);
            let diversion = Diversion {
                scratch,
                first_source: source,
                count: 0,
            };
            self.diversions.insert(value.index(), diversion);
        }
        let diversion = self.diversions.get_mut(&value.index());
        let diversion = diversion.expect("it is live");
        for &writer in open {
            let carried = &mut self.moves[writer].carried;
            if !carried.contains(&value) {
                carried.push(value);
                diversion.count += 1;
            }
        }
        Ok(diversion.scratch)
    }

    /// "At zero the copy from first source to scratch is emitted and a slot
    /// scratch put back."
    fn let_go(&mut self, value: Value) -> Result<(), Refused> {
        let diversion = self.diversions.get_mut(&value.index());
        let diversion = diversion.expect("it is live");
        diversion.count -= 1;
        if diversion.count > 0 {
            return Ok(());
        }
        let &mut Diversion {
            scratch,
            first_source,
            ..
        } = diversion;
        self.diversions.remove(&value.index());
        self.emit(first_source, scratch, value)?;
        self.put_back_slot(scratch, value);
        Ok(())
    }
}
