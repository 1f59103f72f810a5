//! Patches resolved in four ways, their edits and faulty ones run on a processor, and what came of it.

use std::collections::BTreeMap;
use std::fmt;
use std::ops::Range;
use std::path::Path;

use parallel_moves::{Allocation, AllocationKind, Edit, ParallelMoves, SpillSlot};

use crate::common::machine::Machine;
use crate::drawn::{Asked, Drawn, End, Function};
use crate::formula::lower::{Frame, listing, slot_sizes};
use crate::subject::Subject;

/// The program around the lists, for every processor.
const MAIN: &str = include_str!("run.c");
/// So many patches are drawn of a function.
const OF_A_FUNCTION: usize = 10;
/// Kept evictions, and whether by groups.
const WAYS: [(u32, bool); 4] = [(1, false), (1, true), (2, false), (2, true)];

/// What was counted.
#[derive(Default)]
pub struct Counts {
    pub patches: usize,
    pub lists: usize,
    /// Lists after which the processor does not hold what the machine holds.
    pub unlike_the_machine: usize,
    /// Lists of the library after which it does not hold what the patch says, and what is wrong with the first.
    pub wrong: usize,
    pub first_wrong: Option<String>,
    /// Lists in which two edits are exchanged or one is dropped, and those that are then found wrong on the
    /// processor, and on the machine.
    pub faulty: usize,
    pub told: usize,
    pub told_by_the_machine: usize,
    /// Patches whose edits are others with two kept evictions, and by groups.
    pub other_with_two: usize,
    pub other_by_groups: usize,
    /// Edits by what they do.
    pub kinds: BTreeMap<&'static str, usize>,
}

impl fmt::Display for Counts {
    fn fmt(&self, f: &mut fmt::Formatter<'_>) -> fmt::Result {
        write!(
            f,
            "{} patches, {} lists, {} wrong, {} unlike the machine, of {} faulty lists {} told \
             (by the machine {}), other edits with two kept evictions {}, by groups {}, kinds {:?}",
            self.patches,
            self.lists,
            self.wrong,
            self.unlike_the_machine,
            self.faulty,
            self.told,
            self.told_by_the_machine,
            self.other_with_two,
            self.other_by_groups,
            self.kinds
        )
    }
}

/// A patch: its edits in each way, and the values' contents.
struct Task {
    asked: Asked,
    edits: [Vec<Edit>; 4],
    contents: Vec<Vec<u32>>,
    constants: Vec<Vec<u32>>,
}

/// A function, its patches, and its frame in each way.
struct Drawing {
    function: Function,
    tasks: Vec<Task>,
    frames: [(Frame, Vec<usize>); 4],
}

impl Drawing {
    fn drawn(subject: &Subject, patches: usize, drawn: &mut Drawn) -> Self {
        let function = Function::drawn(subject, drawn);
        let opening = function.job.target_and_function().unwrap();
        let mut opened = WAYS.map(|(kept, _)| ParallelMoves::open(kept, &opening).unwrap());
        let tasks: Vec<Task> = (0..patches)
            .map(|_| Task::drawn(subject, &function, &mut opened, drawn))
            .collect();
        let bytes = |&bank: &usize| subject.widths[bank] * subject.unit_bytes();
        let ordinary: Vec<usize> = function.slots.iter().map(bytes).collect();
        let frames = [0, 1, 2, 3].map(|way| {
            let mut sizes = ordinary.clone();
            for task in &tasks {
                sizes = slot_sizes(&sizes, &task.edits[way], subject.bytes, &task.constants);
            }
            (Frame::new(subject.below, &sizes), sizes)
        });
        Drawing {
            function,
            tasks,
            frames,
        }
    }

    /// Where the emergency slots lie in a state.
    fn emergency(&self, subject: &Subject, way: usize) -> Vec<Range<usize>> {
        let (frame, sizes) = &self.frames[way];
        let slots = self.function.slots.len()..sizes.len();
        let range = |slot: usize| {
            let start = subject.stack_pointer_at() + frame.offset(SpillSlot::new(slot));
            start..start + sizes[slot]
        };
        slots.map(range).collect()
    }

    /// A machine with drawn contents, in which a patch can begin.
    fn machine(&self, subject: &Subject, task: &Task, way: usize, drawn: &mut Drawn) -> Machine {
        // An argument word holds what a register of one unit does.
        let word = |register, drawn: &mut Drawn| (subject.units_of(register)[0], drawn.words(1));
        let slots = self.frames[way].1.iter().enumerate();
        let slots: Vec<(u16, usize)> = slots
            .map(|(slot, bytes)| (slot as u16, bytes / subject.unit_bytes()))
            .collect();
        let mut machine = Machine {
            registers: subject.registers.clone(),
            units: drawn.words(subject.units),
            words: subject
                .memory_registers()
                .map(|register| word(register, drawn))
                .collect(),
            slots: slots
                .into_iter()
                .map(|(slot, count)| (slot, drawn.words(count)))
                .collect(),
        };
        task.asked
            .begin(subject, &self.function, &mut machine, &task.contents);
        machine
    }
}

impl Task {
    fn drawn(
        subject: &Subject,
        function: &Function,
        opened: &mut [ParallelMoves; 4],
        drawn: &mut Drawn,
    ) -> Self {
        let asked = Asked::drawn(subject, function, drawn);
        let patch = asked.patch();
        let mut edits = [const { Vec::new() }; 4];
        for ((moves, (_, by_groups)), edits) in opened.iter_mut().zip(WAYS).zip(&mut edits) {
            let answer = if by_groups {
                moves.resolve_by_groups(&patch)
            } else {
                moves.resolve(&patch)
            };
            edits.extend(answer.unwrap_or_else(|refusal| panic!("{refusal}: {asked:?}")));
        }
        let contents = function.contents(subject, drawn);
        let constants = function.constants(subject, &contents);
        Task {
            asked,
            edits,
            contents,
            constants,
        }
    }
}

/// A list of edits to run, from a start.
struct List<'a> {
    drawing: &'a Drawing,
    task: &'a Task,
    way: usize,
    edits: Vec<Edit>,
    faulty: bool,
    machine: Machine,
    start: Vec<u8>,
}

impl List<'_> {
    fn frame(&self) -> &Frame {
        &self.drawing.frames[self.way].0
    }

    fn text(&self, subject: &Subject, number: usize) -> String {
        let lower = |edit| (subject.lower)(edit, self.frame(), &self.task.constants);
        let lines = listing(subject.remark, &self.edits, lower);
        format!("list_{number}:\n{lines}    {}\n", subject.done)
    }

    /// Holds a processor's end against the machine's, and both against what the patch says.
    fn judge(self, subject: &Subject, end: &[u8], counts: &mut Counts) {
        let mut machine = self.machine.clone();
        let content = |value: u16| self.task.contents[usize::from(value)].clone();
        self.edits
            .iter()
            .for_each(|&edit| machine.step(edit, &content));
        let meant = subject.state(&machine, self.frame(), &self.start);
        counts.unlike_the_machine += usize::from(meant != end);
        let emergency = self.drawing.emergency(subject, self.way);
        let wrong = |end: &[u8]| {
            let (frame, contents) = (self.frame(), &self.task.contents[..]);
            let end = End {
                frame,
                emergency: &emergency,
                contents,
                start: &self.start,
                end,
            };
            self.task.asked.wrong(subject, &end)
        };
        let (told, told_by_the_machine) = (wrong(end), wrong(&meant));
        if self.faulty {
            counts.faulty += 1;
            counts.told += usize::from(told.is_some());
            counts.told_by_the_machine += usize::from(told_by_the_machine.is_some());
            return;
        }
        counts.lists += 1;
        counts.wrong += usize::from(told.is_some());
        if let (Some(what), None) = (told, &counts.first_wrong) {
            let (asked, edits) = (&self.task.asked, &self.edits);
            counts.first_wrong = Some(format!(
                "{what}: {:?}: {asked:?}: {edits:?}",
                WAYS[self.way]
            ));
        }
    }
}

/// Edits of which two are exchanged, or one is dropped; none if there are none.
fn spoiled(edits: &[Edit], drawn: &mut Drawn) -> Option<Vec<Edit>> {
    let mut spoiled = edits.to_vec();
    match edits.len() {
        0 => return None,
        count if count > 1 && drawn.below(2) == 0 => {
            let first = drawn.below(count - 1);
            spoiled.swap(first, first + 1 + drawn.below(count - 1 - first));
        }
        count => drop(spoiled.remove(drawn.below(count))),
    }
    Some(spoiled)
}

/// Draws patches, and runs their edits on a processor, in one program. What is assembled may be changed before.
pub fn run(
    subject: &Subject,
    seed: u64,
    patches: usize,
    folder: &Path,
    change: impl FnOnce(String) -> String,
    counts: &mut Counts,
) {
    let mut drawn = Drawn::new(seed);
    let mut drawings = Vec::new();
    for first in (0..patches).step_by(OF_A_FUNCTION) {
        let count = OF_A_FUNCTION.min(patches - first);
        drawings.push(Drawing::drawn(subject, count, &mut drawn));
    }
    let frames = drawings.iter().flat_map(|drawing| &drawing.frames);
    let frame = frames.map(|(frame, _)| frame.bytes).max().unwrap_or(0);
    let mut lists = Vec::new();
    for drawing in &drawings {
        for task in &drawing.tasks {
            counts.task(task);
            for way in 0..4 {
                lists.extend(two_lists(subject, drawing, task, way, frame, &mut drawn));
            }
        }
    }
    let text = change(assembly(subject, &lists, frame));
    let starts: Vec<u8> = lists.iter().flat_map(|list| &list.start).copied().collect();
    let files = [("main.c", MAIN), subject.run, ("lists.s", &text)];
    let ends = subject.processor.run(folder, &files, &starts).unwrap();
    assert_eq!(ends.len(), starts.len());
    for (list, end) in lists
        .into_iter()
        .zip(ends.chunks_exact(subject.state_bytes(frame)))
    {
        list.judge(subject, end, counts);
    }
}

/// The edits of a task in a way, and the same with a fault.
fn two_lists<'a>(
    subject: &Subject,
    drawing: &'a Drawing,
    task: &'a Task,
    way: usize,
    frame: usize,
    drawn: &mut Drawn,
) -> Vec<List<'a>> {
    let right = task.edits[way].clone();
    let faulty = spoiled(&right, drawn);
    let machine = drawing.machine(subject, task, way, drawn);
    let noise: Vec<u8> = (0..subject.state_bytes(frame))
        .map(|_| drawn.below(256) as u8)
        .collect();
    let start = subject.state(&machine, &drawing.frames[way].0, &noise);
    let both = [(Some(right), false), (faulty, true)];
    let list = |(edits, faulty): (Option<Vec<Edit>>, bool)| {
        let (machine, start) = (machine.clone(), start.clone());
        Some(List {
            drawing,
            task,
            way,
            edits: edits?,
            faulty,
            machine,
            start,
        })
    };
    both.into_iter().filter_map(list).collect()
}

/// All lists in one file, with a table of them.
fn assembly(subject: &Subject, lists: &[List<'_>], frame: usize) -> String {
    let mut text = String::from(subject.head);
    for (number, list) in lists.iter().enumerate() {
        text += &list.text(subject, number);
    }
    let numbers = [
        ("list_count", lists.len()),
        ("state_bytes", subject.state_bytes(frame)),
        ("stack_pointer_at", subject.stack_pointer_at()),
    ];
    text += ".data\n.balign 8\n.globl lists\nlists:\n";
    for number in 0..lists.len() {
        text += &format!("{} list_{number}\n", subject.pointer);
    }
    for (name, number) in numbers {
        text += &format!(".globl {name}\n{name}: .long {number}\n");
    }
    let constants = lists.iter().flat_map(|list| &list.task.constants);
    text += &subject.pool(constants).join("\n");
    text + "\n.section .note.GNU-stack, \"\", %progbits\n"
}

impl Counts {
    /// Counts the edits of a patch.
    fn task(&mut self, task: &Task) {
        self.patches += 1;
        self.other_with_two += usize::from(task.edits[0] != task.edits[2]);
        self.other_by_groups += usize::from(task.edits[0] != task.edits[1]);
        let is_slot = |place: Allocation| matches!(place.kind(), AllocationKind::SpillSlot(_));
        for edit in task.edits.iter().flatten() {
            let kind = match *edit {
                Edit::Move { to, .. } if is_slot(to) => "to a slot",
                Edit::Move { from, .. } if is_slot(from) => "from a slot",
                Edit::Move { .. } => "between registers",
                Edit::Rematerialize { to, .. } if is_slot(to) => "rebuilt in a slot",
                Edit::Rematerialize { .. } => "rebuilt in a register",
                Edit::EmergencySpill { .. } => "saved",
                Edit::EmergencyReload { .. } => "loaded back",
            };
            *self.kinds.entry(kind).or_default() += 1;
        }
    }
}
