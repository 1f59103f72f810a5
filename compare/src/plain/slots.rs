//! Emergency slots, of a function alone and in a frame.

use original::output::SpillSlot;

use super::{OUT_OF_SLOTS, Slip};
use crate::number::Refused;

/// A formula's part in a frame (request 02 l), at a call.
#[derive(Clone)]
pub(crate) struct Part {
    /// "Slot numbers come from one counter."
    pub counter: usize,
    pub share: usize,
    /// "What the others still lack of their shares."
    pub others_lack: usize,
    /// The common limit.
    pub limit: usize,
}

/// "Emergency slots lie in 32 stacks by size."
#[derive(Clone)]
pub(super) struct Slots {
    pub(super) stacks: Vec<Vec<SpillSlot>>,
    /// Of this function.
    pub(super) made: usize,
    pub(super) shared: Option<Part>,
    /// N.
    pub(super) first: usize,
    /// L.
    pub(super) limit: usize,
}

impl Slots {
    /// "Take the one last put back, else make slot N, then N + 1 and so on."
    pub(super) fn take(&mut self, size: usize, slip: Slip) -> Result<SpillSlot, Refused> {
        if let Some(slot) = self.stacks[size].pop() {
            return Ok(slot);
        }
        if slip == Slip::OtherSize
            && let Some(slot) = self.stacks.iter_mut().find_map(Vec::pop)
        {
            return Ok(slot);
        }
        if let Some(part) = &mut self.shared {
            // "A formula may make a slot while it is below its share, or while all slots made plus
            // what the others still lack of their shares are below the limit; otherwise its patch
            // gets 17."
            let below_share = self.made < part.share;
            let all_below = part.counter + part.others_lack < part.limit;
            if !below_share && !all_below {
                return Err(OUT_OF_SLOTS);
            }
            self.made += 1;
            part.counter += 1;
            return Ok(SpillSlot::new(self.first + part.counter - 1));
        }
        if self.made == self.limit {
            return Err(OUT_OF_SLOTS);
        }
        self.made += 1;
        Ok(SpillSlot::new(self.first + self.made - 1))
    }

    pub(super) fn put_back(&mut self, slot: SpillSlot, size: usize) {
        self.stacks[size].push(slot);
    }
}
