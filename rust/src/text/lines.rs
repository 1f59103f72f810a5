//! A job from the lines of its text.

use std::collections::HashMap;
use std::str::{FromStr, SplitWhitespace};

use super::{COSTS, TextError};
use crate::builder::{Bank, Class, JobBuilder, Part, Register, TargetBuilder, ValueInfo};
use crate::entity::{Allocation, PhysReg, RegBank, RegClass, RegUnit, SpillSlot, Value};
use crate::patch::Patch;

/// The job that a text says. It need not be one that is accepted.
impl FromStr for JobBuilder {
    type Err = TextError;

    fn from_str(text: &str) -> Result<Self, TextError> {
        read(text).map(|(job, _)| job)
    }
}

/// Where parts of the job are written.
pub(super) type Lines = HashMap<Part, usize>;

/// The line of a part: its own, or that of the patch that it belongs to.
pub(super) fn line_of(lines: &Lines, part: Part) -> Option<usize> {
    let patch = |number| lines.get(&Part::Patch(number)).copied();
    match part {
        Part::FreeUnit(number, _) => patch(number),
        part => lines.get(&part).copied(),
    }
}

/// The job that a text says, and where its parts are written.
pub(super) fn read(text: &str) -> Result<(JobBuilder, Lines), TextError> {
    let mut reader = TextReader::default();
    let mut last = 0;
    for (line, number) in text.lines().zip(1..) {
        let words = line.split('#').next().unwrap_or("");
        let mut words = Words {
            line: number,
            words: words.split_whitespace(),
        };
        if let Some(word) = words.words.next() {
            reader.take(word, &mut words)?;
        }
        last = number;
    }
    let missing = |what: &str| TextError::Written {
        line: last,
        what: format!("the text ends, and has no line `{what}`"),
    };
    let TextReader {
        mut job,
        lines,
        units,
        slots,
        emergency_slots,
        named: _,
    } = reader;
    job.target.units = Some(units.ok_or_else(|| missing("units"))?);
    job.function.slots = slots.ok_or_else(|| missing("slots"))?;
    job.function.emergency_slots = emergency_slots.ok_or_else(|| missing("emergency-slots"))?;
    Ok((job, lines))
}

#[derive(Default)]
struct TextReader {
    job: JobBuilder,
    lines: Lines,
    units: Option<u32>,
    slots: Option<u32>,
    emergency_slots: Option<u32>,
    /// Whether the target is said by its name.
    named: bool,
}

impl TextReader {
    /// Takes a line in that begins with a word.
    fn take(&mut self, word: &str, words: &mut Words<'_>) -> Result<(), TextError> {
        if ["bank", "register", "class"].contains(&word) && self.named {
            return Err(words.mistake("the target is said a second time".to_owned()));
        }
        let part = match word {
            "target" => self.target(words)?,
            "units" => once(&mut self.units, words, Part::Units)?,
            "bank" => self.bank(words)?,
            "register" => self.register(words)?,
            "class" => self.class(words)?,
            "slots" => once(&mut self.slots, words, Part::Slots)?,
            "emergency-slots" => once(&mut self.emergency_slots, words, Part::EmergencySlots)?,
            "value" => self.value(words)?,
            "patch" => self.patch(words)?,
            "move" | "rebuild" => self.entry(word, words)?,
            other => {
                let other = cited(other);
                return Err(words.mistake(format!("`{other}` begins no line of a job")));
            }
        };
        words.end()?;
        self.lines.insert(part, words.line);
        // A count has no line of its own: it is that of the last one counted.
        if let Some(count) = count_of(part) {
            self.lines.insert(count, words.line);
        }
        Ok(())
    }

    /// A target by its name: no other line says something of it.
    fn target(&mut self, words: &mut Words<'_>) -> Result<Part, TextError> {
        let known = self.job.target != TargetBuilder::default() || self.units.is_some();
        if known {
            return Err(words.mistake("the target is said a second time".to_owned()));
        }
        let target = words.peek().and_then(TargetBuilder::named);
        let target = target.ok_or_else(|| words.found("a target's name, `shipped` or `vfp`,"))?;
        words.words.next();
        self.units = Some(target.unit_count());
        self.job.target = target;
        self.named = true;
        Ok(Part::Units)
    }

    fn bank(&mut self, words: &mut Words<'_>) -> Result<Part, TextError> {
        let index = words.next_name('b', self.job.target.banks.len())?;
        words.word("slots")?;
        let size_log2 = words.number("2^")?;
        words.word("top-level")?;
        let top_level_class = Some(RegClass(words.number("c")?));
        words.word("stack")?;
        let stack_class = Some(RegClass(words.number("c")?));
        self.job.target.banks.push(Bank {
            size_log2,
            top_level_class,
            stack_class,
        });
        Ok(Part::Bank(RegBank(index)))
    }

    fn register(&mut self, words: &mut Words<'_>) -> Result<Part, TextError> {
        let index = words.next_name('r', self.job.target.registers.len())?;
        words.word("bank")?;
        let bank = RegBank(words.number("b")?);
        let memory = words.is_next("memory");
        words.word("units")?;
        let units = words.numbers("")?.into_iter().map(RegUnit).collect();
        self.job.target.registers.push(Register {
            memory,
            bank,
            units,
        });
        Ok(Part::Register(PhysReg(index)))
    }

    fn class(&mut self, words: &mut Words<'_>) -> Result<Part, TextError> {
        let index = words.next_name('c', self.job.target.classes.len())?;
        words.word("bank")?;
        let bank = Some(RegBank(words.number("b")?));
        let slots = words.is_next("with-slots");
        words.word("members")?;
        let members = words.numbers("r")?.into_iter().map(PhysReg).collect();
        words.word("order")?;
        let order = words.numbers("r")?.into_iter().map(PhysReg).collect();
        self.job.target.classes.push(Class {
            bank,
            slots,
            members,
            order,
        });
        Ok(Part::Class(RegClass(index)))
    }

    fn value(&mut self, words: &mut Words<'_>) -> Result<Part, TextError> {
        let index = words.next_name('v', self.job.function.values.len())?;
        words.word("bank")?;
        let bank = RegBank(words.number("b")?);
        let remat = if words.is_next("rebuilt") {
            let costs = COSTS.into_iter();
            let mut costs = costs.map(|(cost, word)| (cost, words.is_next(word)));
            let cost = costs.find(|&(_, said)| said).map(|(cost, _)| cost);
            let cost =
                cost.ok_or_else(|| words.found("`cheaper-than-move` or `cheaper-than-load`"))?;
            words.word("by")?;
            Some((cost, RegClass(words.number("c")?)))
        } else {
            None
        };
        self.job.function.values.push(ValueInfo { bank, remat });
        Ok(Part::Value(Value(index)))
    }

    fn patch(&mut self, words: &mut Words<'_>) -> Result<Part, TextError> {
        let number = self.job.patches.len() + 1;
        if words.number("")? as usize != number {
            return Err(words.mistake(format!("the next patch is {number}")));
        }
        let mut patch = Patch::empty();
        if words.is_next("free") {
            patch.free = words.numbers("")?.into_iter().map(RegUnit).collect();
        }
        self.job.patches.push(patch);
        Ok(Part::Patch(number))
    }

    fn entry(&mut self, word: &str, words: &mut Words<'_>) -> Result<Part, TextError> {
        let number = self.job.patches.len();
        let Some(patch) = self.job.patches.last_mut() else {
            return Err(words.mistake("an entry before the first patch".to_owned()));
        };
        let value = Value(words.number("v")?);
        if word == "move" {
            words.word("from")?;
            let from = words.place()?;
            words.word("to")?;
            patch.add_move(from, words.place()?, value);
        } else {
            words.word("in")?;
            patch.add_remat(words.place()?, value);
        }
        Ok(Part::Entry(number, patch.len()))
    }
}

/// Takes in a number that is said once.
fn once(known: &mut Option<u32>, words: &mut Words<'_>, part: Part) -> Result<Part, TextError> {
    if known.is_some() {
        return Err(words.mistake(format!("{part} is said a second time")));
    }
    *known = Some(words.number("")?);
    Ok(part)
}

/// How many there are of what a part is one of.
fn count_of(part: Part) -> Option<Part> {
    match part {
        Part::Bank(_) => Some(Part::Banks),
        Part::Register(_) => Some(Part::Registers),
        Part::Class(_) => Some(Part::Classes),
        Part::Value(_) => Some(Part::Values),
        Part::Patch(_) => Some(Part::Patches),
        _ => None,
    }
}

/// The words of a line.
struct Words<'a> {
    line: usize,
    words: SplitWhitespace<'a>,
}

impl<'a> Words<'a> {
    fn mistake(&self, what: String) -> TextError {
        TextError::Written {
            line: self.line,
            what,
        }
    }

    /// The mistake that something else is next.
    fn found(&self, wanted: &str) -> TextError {
        match self.peek() {
            Some(word) => self.mistake(format!("{wanted} is due, and not `{}`", cited(word))),
            None => self.mistake(format!("{wanted} is due, and the line ends")),
        }
    }

    fn peek(&self) -> Option<&'a str> {
        self.words.clone().next()
    }

    /// Whether a word is next, which is then taken.
    fn is_next(&mut self, word: &str) -> bool {
        let next = self.peek() == Some(word);
        if next {
            self.words.next();
        }
        next
    }

    fn word(&mut self, word: &str) -> Result<(), TextError> {
        match self.is_next(word) {
            true => Ok(()),
            false => Err(self.found(&format!("`{word}`"))),
        }
    }

    /// The number that is next, behind such a start.
    fn number(&mut self, start: &str) -> Result<u32, TextError> {
        let number = self
            .peek()
            .and_then(|word| number(word.strip_prefix(start)?));
        let number = number.ok_or_else(|| match start {
            "" => self.found("a number below 2^32"),
            _ => self.found(&format!("`{start}` and a number below 2^32")),
        })?;
        self.words.next();
        Ok(number)
    }

    /// The numbers that are next, behind such a start each.
    fn numbers(&mut self, start: &str) -> Result<Vec<u32>, TextError> {
        let mut numbers = Vec::new();
        let is_one = |word: &str| {
            word.strip_prefix(start)
                .is_some_and(|rest| number(rest).is_some())
        };
        while self.peek().is_some_and(is_one) {
            numbers.push(self.number(start)?);
        }
        Ok(numbers)
    }

    /// The name of what is added, which counts up.
    fn next_name(&mut self, letter: char, index: usize) -> Result<u32, TextError> {
        let next = format!("{letter}{index}");
        if self.peek() != Some(&next) {
            return Err(self.found(&format!("the name `{next}`")));
        }
        self.number(&letter.to_string())
    }

    fn place(&mut self) -> Result<Allocation, TextError> {
        let is_register = self.peek().is_some_and(|word| word.starts_with('r'));
        let number = self.number(if is_register { "r" } else { "s" });
        let number = number.map_err(|_| self.found("a register `r0` or a slot `s0`"))?;
        if number >= 1 << 31 {
            return Err(self.mistake(format!("{number} is too high for a register or slot")));
        }
        Ok(match is_register {
            true => PhysReg(number).into(),
            false => SpillSlot(number).into(),
        })
    }

    fn end(&self) -> Result<(), TextError> {
        match self.peek() {
            None => Ok(()),
            Some(_) => Err(self.found("the line's end")),
        }
    }
}

/// How much of a word is cited.
const CITED: usize = 40;

/// A word as it is cited: its beginning, with what a terminal would not show escaped.
fn cited(word: &str) -> String {
    let start = word.chars().take(CITED).flat_map(char::escape_debug);
    let rest = if word.chars().nth(CITED).is_some() {
        ".."
    } else {
        ""
    };
    start.chain(rest.chars()).collect()
}

/// A number in base ten, without a sign.
fn number(word: &str) -> Option<u32> {
    let digits = !word.is_empty() && word.bytes().all(|byte| byte.is_ascii_digit());
    word.parse().ok().filter(|_| digits)
}
