//! One job with the L that frame layout should plan with (request 02 j): whether ours
//! gives that number, whether it is enough, and what the answer shows of the slots.

use std::collections::{BTreeMap, BTreeSet};

use judge::draft::Draft;
use judge::enough;
use judge::generate::calls::NO_SETTINGS;

use crate::compare::{self, Difference, Outcome, Way};
use crate::ours::Ours;
use crate::parse;

/// Compares the answers to a job at a setting, with its L planned anew. One whose
/// target or function is refused is compared as it is.
pub fn compare(
    ours: &mut Ours,
    kept_evictions: u32,
    job: &[u8],
    way: Way,
) -> Result<Outcome, Box<Difference>> {
    let opening = parse::opening(job);
    let bytes = opening.as_ref().map(|(draft, _)| draft.opening());
    let enough = same_number(ours, kept_evictions, bytes.as_deref().unwrap_or(job))?;
    if way.with_little_room {
        same_number(ours, kept_evictions, job)?;
        for setting in NO_SETTINGS {
            same_number(ours, setting, bytes.as_deref().unwrap_or(job))?;
        }
    }
    let (Some((mut draft, rest)), Some(enough)) = (opening, enough) else {
        return compare::compare(ours, kept_evictions, job, way);
    };
    draft.emergency_limit = enough;
    let mut planned = draft.opening();
    planned.extend(rest);

    let (count, refusal) = ours.answer(kept_evictions, &planned, None);
    if refusal == 17 {
        return Err(wrong(format!("17, with the L to plan with, {enough}")));
    }
    let words = ours.words(count).unwrap_or_default();
    let most = 127 + kept_evictions as usize;
    let slots = slots_by_size(&draft, words, most).map_err(wrong)?;
    let mut outcome = compare::compare(ours, kept_evictions, &planned, way)?;
    outcome.slots_by_size = Some(slots);
    Ok(outcome)
}

fn wrong(what: String) -> Box<Difference> {
    Box::new(Difference {
        what,
        judged: String::new(),
        printed: String::new(),
        decoded: String::new(),
    })
}

/// The number that both say is enough for a target and a function, if they take them.
fn same_number(
    ours: &mut Ours,
    kept_evictions: u32,
    bytes: &[u8],
) -> Result<Option<usize>, Box<Difference>> {
    let judged = enough::enough_slots(kept_evictions, bytes);
    let expected = judged.map_or_else(|refused| (0, refused.0), |enough| (enough, 0));
    let given = ours.enough_slots(kept_evictions, bytes);
    if given == expected {
        Ok(judged.ok())
    } else {
        Err(wrong(format!(
            "the L to plan with at setting {kept_evictions}, and the refusal: {given:?}, of the \
             judge {expected:?}"
        )))
    }
}

/// How many slots of each size an answer's patches make, as its edits show it; or
/// what is wrong: each slot has one size, that of the banks of all edits that name it
/// (M and R: of the value's, S and L: of the register's); one is made only where none
/// of its size lies in the stack; and there are at most so many of a size.
fn slots_by_size(
    draft: &Draft,
    words: &[u64],
    most: usize,
) -> Result<BTreeMap<usize, usize>, String> {
    // The sizes of the slots made so far, counted from N.
    let mut sizes: BTreeMap<usize, usize> = BTreeMap::new();
    let mut rest = words;
    while let Some((&head, after)) = rest.split_first() {
        let made = (head / 8 / 65_536 % 65_536) as usize;
        let edits;
        (edits, rest) = after
            .split_at_checked((head / 8 % 65_536) as usize)
            .ok_or("fewer words than edits")?;
        // As they were made.
        let edits: Vec<Named> = edits
            .iter()
            .rev()
            .map(|&edit| Named::new(draft, edit))
            .collect::<Result<_, _>>()?;
        add_patch(&mut sizes, &edits)?;
        if sizes.keys().copied().ne(0..made) {
            let named = sizes.len();
            return Err(format!("{made} slots are made, and edits name {named}"));
        }
    }
    let mut by_size = BTreeMap::new();
    for size in sizes.into_values() {
        *by_size.entry(size).or_default() += 1;
    }
    match by_size.iter().find(|&(_, &count)| count > most) {
        Some((size, count)) => Err(format!("{count} slots of size {size}")),
        None => Ok(by_size),
    }
}

/// Adds the sizes of the slots that a patch makes, from its edits as they were made.
/// A slot is in use from an edit that reads it to the next that writes it.
fn add_patch(sizes: &mut BTreeMap<usize, usize>, edits: &[Named]) -> Result<(), String> {
    let mut in_use = BTreeSet::new();
    for (at, edit) in edits.iter().enumerate() {
        for slot in edit.slots() {
            let size = match sizes.get(&slot) {
                Some(&size) => size,
                None => {
                    let idle = |other: &usize| !in_use.contains(other) && !near(edits, at, *other);
                    let mut same = sizes.iter().filter(|&(_, &size)| size == edit.size);
                    if let Some((other, _)) = same.find(|&(other, _)| idle(other)) {
                        return Err(format!(
                            "slot {slot} from N on is made, with {other} of its size at hand"
                        ));
                    }
                    sizes.insert(slot, edit.size);
                    edit.size
                }
            };
            if size != edit.size {
                return Err(format!(
                    "slot {slot} from N on has the sizes {size} and {}",
                    edit.size
                ));
            }
        }
        in_use.extend(edit.read);
        if let Some(written) = edit.written {
            in_use.remove(&written);
        }
    }
    Ok(())
}

/// Whether a slot is named so near to an edit that it may have been in use when that
/// one's was taken. Between taking a slot and the move or rebuild that names it,
/// registers are brought back and evicted; a copy through a register is two moves, of
/// which either may be the one. To take a slot and evict into it is one step.
fn near(edits: &[Named], at: usize, slot: usize) -> bool {
    let scratch = !edits[at].evicts;
    let before = edits[..at].iter().rev().enumerate();
    let before = before.take_while(|&(steps, edit)| scratch && (steps == 0 || edit.evicts));
    let mut others = 0;
    let after = edits[at..].iter().take_while(|edit| {
        let near = others < 2;
        others += usize::from(!edit.evicts);
        near
    });
    before
        .map(|(_, edit)| edit)
        .chain(after)
        .any(|edit| edit.slots().any(|other| other == slot))
}

/// What an edit says of emergency slots, counted from N.
struct Named {
    /// That of its bank.
    size: usize,
    /// Whether it is S or L.
    evicts: bool,
    read: Option<usize>,
    written: Option<usize>,
}

impl Named {
    fn new(draft: &Draft, edit: u64) -> Result<Named, String> {
        let (to, from) = (edit / 8 % 16_384, edit / 8 / 16_384 % 16_384);
        let bank_of_value = || draft.values.get((edit >> 31) as usize).map(|v| v.bank);
        let bank_of = |code: u64| Some(draft.target.registers.get(code as usize / 2)?.bank);
        let bank = match edit % 8 {
            1 | 2 => bank_of_value(),
            3 => bank_of(from),
            4 => bank_of(to),
            _ => None,
        };
        let bank = bank.ok_or_else(|| format!("{edit} is no edit"))?;
        let slot = |code: u64| match code % 2 {
            0 => (code as usize / 2).checked_sub(draft.slots),
            _ => None,
        };
        Ok(Named {
            size: draft.target.banks[bank].size_log2,
            evicts: edit % 8 > 2,
            read: if edit % 8 == 2 { None } else { slot(from) },
            written: slot(to),
        })
    }

    fn slots(&self) -> impl Iterator<Item = usize> {
        self.read.into_iter().chain(self.written)
    }
}
