//! A judge, opened for a function and called patch by patch.

use std::fmt::{self, Write};

use original::internal::parallel_moves::Edit;
use original::output::{Allocation, AllocationKind};

use crate::answer::{Judge, LEFT_OVER, MOST_BYTES, Resolver};
use crate::enough;
use crate::generate;
use crate::number::{self, NAMES_NOTHING, Reader, Refused};
use crate::patch::Patch;
use crate::target::Target;
use crate::values::Values;

/// As many words are enough for every patch.
pub const MOST_EDITS: usize = 1024;

/// 16: lent list shorter than the bound.
pub(crate) const LIST_TOO_SHORT: Refused = Refused(16);

/// A patch as it is given, and how long a list is lent.
#[derive(Clone, Default)]
pub struct Call {
    pub free: Vec<u32>,
    /// Four to an entry: `0 source destination value`, or `1 destination value`
    /// and any number.
    pub numbers: Vec<u32>,
    pub room: Room,
}

/// How long a list is lent.
#[derive(Clone, Copy, Debug, Default)]
pub enum Room {
    /// As long as ever needed.
    #[default]
    Most,
    /// Just as long as asked for.
    Bound,
    /// Shorter, by a number that counts from 1 and starts over.
    Short(usize),
    /// As long as said.
    Exact(usize),
}

impl Room {
    pub(crate) fn length(self, bound: usize) -> usize {
        match self {
            Room::Most => MOST_EDITS,
            Room::Bound => bound,
            Room::Exact(length) => length,
            Room::Short(less) => bound.saturating_sub(1 + less % bound.max(1)),
        }
    }
}

/// A target and a function, and who resolves its patches.
pub struct Function {
    pub(crate) judge: Judge,
    pub target: Target,
    pub values: Values,
}

impl Function {
    /// Reads a target and a function with nothing behind them. A setting without
    /// a judge is refused first.
    pub fn open(judge: Result<Judge, Refused>, bytes: &[u8]) -> Result<Function, Refused> {
        Function::open_with(judge, bytes, None)
    }

    /// The same, of this N if one is given (request 02 l).
    pub(crate) fn open_with(
        judge: Result<Judge, Refused>,
        bytes: &[u8],
        of: Option<usize>,
    ) -> Result<Function, Refused> {
        let judge = judge?;
        if bytes.len() > MOST_BYTES {
            return Err(NAMES_NOTHING);
        }
        let mut reader = Reader::new(bytes);
        let target = Target::read(&mut reader)?;
        let values = Values::read_with(&mut reader, &target, of)?;
        if !reader.at_end() {
            return Err(LEFT_OVER);
        }
        Ok(Function {
            judge,
            target,
            values,
        })
    }

    fn resolver(&self) -> Resolver<'_> {
        Resolver::new(self.judge, &self.target, &self.values)
    }
}

/// What a call should come to.
pub struct Expected {
    /// The length of the lent list.
    pub room: usize,
    /// The words of the edits, or the refusal.
    pub outcome: Result<Vec<u64>, Refused>,
    /// How many emergency slots the function has after the call.
    pub made: usize,
    /// The greatest position that the patch met; 0 if it is refused.
    pub position: usize,
}

/// A judge over a function, call by call. It sees accepted calls only.
pub struct Session<'a> {
    function: &'a Function,
    resolver: Resolver<'a>,
    /// The patches that were accepted.
    accepted: Vec<Patch>,
}

impl<'a> Session<'a> {
    pub fn new(function: &'a Function) -> Self {
        Session {
            function,
            resolver: function.resolver(),
            accepted: Vec::new(),
        }
    }

    /// Makes a call.
    pub fn call(&mut self, call: &Call) -> Expected {
        let patch = self.read(call);
        let room = call
            .room
            .length(patch.as_ref().map_or(0, |patch| patch.bound));
        let outcome = patch.and_then(|patch| self.resolve(patch, room));
        let position = outcome.as_ref().map_or(0, |_| self.resolver.position());
        Expected {
            room,
            outcome,
            made: self.resolver.made(),
            position,
        }
    }

    /// The patch of a call, tested.
    pub fn read(&self, call: &Call) -> Result<Patch, Refused> {
        let mut bytes = Vec::new();
        number::put(&mut bytes, call.free.len() as u32);
        for &unit in &call.free {
            number::put(&mut bytes, unit);
        }
        number::put(&mut bytes, call.numbers.len().div_ceil(4) as u32);
        for entry in call.numbers.chunks(4) {
            match *entry {
                [1, dest, value, _] => put_all(&mut bytes, &[1, dest, value]),
                [_, _, _, _] => put_all(&mut bytes, entry),
                // Numbers left over name no entry.
                _ => put_all(&mut bytes, &[2]),
            }
        }
        let Function { target, values, .. } = self.function;
        Patch::read(&mut Reader::new(&bytes), target, values)
    }

    fn resolve(&mut self, patch: Patch, room: usize) -> Result<Vec<u64>, Refused> {
        if room < patch.bound {
            return Err(LIST_TOO_SHORT);
        }
        match self.resolver.resolve(&patch) {
            Ok(edits) => {
                self.accepted.push(patch);
                Ok(edits.into_iter().map(word).collect())
            }
            Err(refused) => {
                // It ran to its end: one that did not takes its place.
                self.again()?;
                Err(refused)
            }
        }
    }

    /// A resolver that has seen the accepted calls and no other.
    fn again(&mut self) -> Result<(), Refused> {
        self.resolver = self.function.resolver();
        for patch in &self.accepted {
            self.resolver.resolve(patch)?;
        }
        Ok(())
    }

    /// What a call would come to, its slots made included. It is not made (request 02 g).
    pub fn ask(&mut self, call: &Call) -> Expected {
        let expected = self.call(call);
        if expected.outcome.is_ok() {
            self.accepted.pop();
            self.again().expect("they were accepted");
        }
        expected
    }
}

/// A session with what its calls should come to: the lines of `compare calls`.
pub fn record(session: &generate::calls::Session) -> String {
    let mut text = String::new();
    let mut last = None;
    for opening in session.before.iter().chain([&session.opening]) {
        let kept_evictions = opening.kept_evictions;
        let opened = Function::open(Judge::of(kept_evictions), &opening.bytes);
        let refusal = opened.as_ref().map_or_else(|refused| refused.0, |_| 0);
        let enough = enough::enough_slots(kept_evictions, &opening.bytes).unwrap_or(0);
        put(
            &mut text,
            format_args!("open {refusal} {enough} {kept_evictions}"),
        );
        put_list(&mut text, &opening.bytes);
        text.push('\n');
        last = opened.ok();
    }
    let Some(function) = last else {
        return text;
    };
    let mut judge = Session::new(&function);
    for call in &session.calls {
        let Expected {
            room,
            outcome,
            made,
            position,
        } = judge.call(call);
        let refusal = outcome.as_ref().map_or_else(|refused| refused.0, |_| 0);
        put(
            &mut text,
            format_args!("call {refusal} {made} {position} {room}"),
        );
        put_list(&mut text, &call.free);
        put_list(&mut text, &call.numbers);
        put_list(&mut text, &outcome.unwrap_or_default());
        text.push('\n');
    }
    text
}

/// Puts how many there are, and each.
fn put_list(text: &mut String, list: &[impl fmt::Display]) {
    put(text, format_args!(" {}", list.len()));
    for item in list {
        put(text, format_args!(" {item}"));
    }
}

fn put(text: &mut String, arguments: fmt::Arguments) {
    text.write_fmt(arguments)
        .expect("writing to a string does not fail");
}

fn put_all(bytes: &mut Vec<u8>, numbers: &[u32]) {
    for &number in numbers {
        number::put(bytes, number);
    }
}

fn code(place: Allocation) -> u64 {
    match place.kind() {
        AllocationKind::PhysReg(reg) => 2 * reg.index() as u64 + 1,
        AllocationKind::SpillSlot(slot) => 2 * slot.index() as u64,
    }
}

/// An edit as a packed word.
pub(crate) fn word(edit: Edit) -> u64 {
    let (kind, to, from, value) = match edit {
        Edit::Move { to, from, value } => (1, code(to), code(from), value.index()),
        Edit::Rematerialize { to, value } => (2, code(to), 0, value.index()),
        Edit::EmergencySpill { to, from } => {
            (3, 2 * to.index() as u64, 2 * from.index() as u64 + 1, 0)
        }
        Edit::EmergencyReload { to, from } => {
            (4, 2 * to.index() as u64 + 1, 2 * from.index() as u64, 0)
        }
        Edit::IndirectRematerialize { .. } => unreachable!("the module never emits it"),
    };
    ((value as u64 * 16_384 + from) * 16_384 + to) * 8 + kind
}
