//! A job's bytes taken apart again, as a draft, and as words.

use judge::draft::{Bank, COST_NONE, Class, Draft, Entry, Patch, Place, Register, Target, Value};
use judge::number::{Reader, Refused};

/// The draft that writes this very job, but for some bytes left over, if there
/// is one. It need not be a job that is accepted.
pub fn draft(job: &[u8]) -> Option<(Draft, &[u8])> {
    let mut reader = Reader::new(job);
    let draft = read(&mut reader).ok()?;
    let (written, left_over) = job.split_at(reader.place());
    (draft.job() == written).then_some((draft, left_over))
}

/// The target and the function that a job begins with, as a draft without patches
/// that writes these very bytes, and what follows them, if there is one. They need
/// not be accepted.
pub fn opening(job: &[u8]) -> Option<(Draft, &[u8])> {
    let mut reader = Reader::new(job);
    let draft = read_opening(&mut reader).ok()?;
    let (written, rest) = job.split_at(reader.place());
    (draft.opening() == written).then_some((draft, rest))
}

fn read(reader: &mut Reader) -> Result<Draft, Refused> {
    let mut draft = read_opening(reader)?;
    draft.patches = list(reader, |reader| {
        Ok(Patch {
            free: list(reader, number)?,
            entries: list(reader, entry)?,
        })
    })?;
    Ok(draft)
}

fn read_opening(reader: &mut Reader) -> Result<Draft, Refused> {
    let target = Target {
        units: number(reader)?,
        banks: list(reader, |reader| {
            Ok(Bank {
                size_log2: number(reader)?,
                top_level_class: number(reader)?,
                stack_class: number(reader)?,
            })
        })?,
        registers: list(reader, |reader| {
            Ok(Register {
                memory: reader.flag()?,
                bank: number(reader)?,
                units: list(reader, number)?,
            })
        })?,
        classes: list(reader, |reader| {
            Ok(Class {
                bank: number(reader)?,
                slots: reader.flag()?,
                members: list(reader, number)?,
                order: list(reader, number)?,
            })
        })?,
    };
    let values = number(reader)?;
    let slots = number(reader)?;
    let emergency_limit = number(reader)?;
    Ok(Draft {
        target,
        slots,
        emergency_limit,
        values: several(reader, values, |reader| {
            let bank = number(reader)?;
            let cost = number(reader)?;
            let class = if cost == COST_NONE {
                0
            } else {
                number(reader)?
            };
            Ok(Value { bank, cost, class })
        })?,
        patches: Vec::new(),
    })
}

fn entry(reader: &mut Reader) -> Result<Entry, Refused> {
    let source = if reader.flag()? {
        None
    } else {
        Some(place(reader)?)
    };
    Ok(Entry {
        source,
        dest: place(reader)?,
        value: number(reader)?,
    })
}

fn place(reader: &mut Reader) -> Result<Place, Refused> {
    let code = number(reader)?;
    Ok(if code % 2 == 0 {
        Place::Slot(code / 2)
    } else {
        Place::Register(code / 2)
    })
}

fn number(reader: &mut Reader) -> Result<usize, Refused> {
    Ok(reader.number()? as usize)
}

fn list<T>(
    reader: &mut Reader,
    read: impl FnMut(&mut Reader) -> Result<T, Refused>,
) -> Result<Vec<T>, Refused> {
    let count = number(reader)?;
    several(reader, count, read)
}

fn several<T>(
    reader: &mut Reader,
    count: usize,
    mut read: impl FnMut(&mut Reader) -> Result<T, Refused>,
) -> Result<Vec<T>, Refused> {
    (0..count).map(|_| read(reader)).collect()
}

/// The words that `compare encode` makes this job of: numbers, and from the
/// first that is none on, bytes.
pub fn words(job: &[u8]) -> String {
    let mut words = Vec::new();
    let mut reader = Reader::new(job);
    let mut read = 0;
    while let Ok(number) = reader.number() {
        words.push(number.to_string());
        read = reader.place();
    }
    words.extend(job[read..].iter().map(|byte| format!("{byte:#04x}")));
    words.join(" ")
}
