//! What a function was opened with, and what can be told of it without the library.

use std::sync::OnceLock;

use crate::builder::JobBuilder;
use crate::entity::SpillSlot;
use crate::reading::Reading;

/// How many stacks of emergency slots there are, one for each size.
const SIZES: usize = 32;
/// Where in the cache the first stack begins, and how much room each has: the depths of the
/// stacks stand before them, each at its size.
const FIRST_STACK: usize = 64;
const ROOM_OF_STACK: usize = 2048;

/// The bytes of a target and a function that were accepted, and the number of kept evictions.
pub(crate) struct Opening {
    kept_evictions: u32,
    bytes: Vec<u8>,
    /// The bytes taken apart, when they are first asked for.
    job: OnceLock<JobBuilder>,
}

impl Opening {
    pub(crate) fn new(kept_evictions: u32, bytes: &[u8]) -> Self {
        Opening {
            kept_evictions,
            bytes: bytes.to_vec(),
            job: OnceLock::new(),
        }
    }

    /// The same memory for another function.
    pub(crate) fn again(mut self, kept_evictions: u32, bytes: &[u8]) -> Self {
        self.bytes.clear();
        self.bytes.extend_from_slice(bytes);
        Opening {
            kept_evictions,
            bytes: self.bytes,
            job: OnceLock::new(),
        }
    }

    pub(crate) fn bytes(&self) -> &[u8] {
        &self.bytes
    }

    pub(crate) fn kept_evictions(&self) -> u32 {
        self.kept_evictions
    }

    /// The target and the function, without patches.
    pub(crate) fn job(&self) -> &JobBuilder {
        self.job.get_or_init(|| Reading::of(&self.bytes).job)
    }

    /// The size of an emergency slot, from the cache of the function. Between patches every
    /// slot that was made lies in the stack of its size, once, which is proved.
    pub(crate) fn slot_size(&self, cache: &[u16], slot: SpillSlot) -> Option<u32> {
        let number = u16::try_from(slot.index()).ok()?;
        let stack_has_it = |size: &usize| {
            let first = FIRST_STACK + size * ROOM_OF_STACK;
            let stack = &cache[first..first + usize::from(cache[*size])];
            stack.contains(&number)
        };
        let size = (0..SIZES).find(stack_has_it)?;
        Some(size as u32)
    }
}
