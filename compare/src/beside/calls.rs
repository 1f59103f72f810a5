//! Functions opened and patches given, call by call, to the judge of a setting and
//! to ours.

use std::fmt::Write;
use std::panic::{self, AssertUnwindSafe};

use judge::answer::Judge;
use judge::calls::{self, Call, Function, Room};
use judge::enough;
use judge::generate::calls::{Opening, Session};

use crate::ours::{NO_POSITION, Ours};

/// What a session's calls came to.
#[derive(Default)]
pub struct Outcome {
    /// The refusals of functions and of patches, 0 for none.
    pub opened: Vec<u8>,
    pub resolved: Vec<u8>,
    pub edits: u64,
}

/// What is not the same.
pub struct Difference {
    /// Of which call, or of opening the function if it is past them.
    pub at: usize,
    pub what: String,
}

/// Makes a session's calls on both sides. After each refused one the list, the
/// cache and the position must be as before it, byte for byte; after each other
/// one the edits, the slots made and the position must be the judge's, and
/// the list as before past the edits.
pub fn compare(ours: &mut Ours, session: &Session) -> Result<Outcome, Difference> {
    let caught = panic::catch_unwind(AssertUnwindSafe(|| both(ours, session)));
    caught.unwrap_or_else(|_| {
        Err(Difference {
            at: session.calls.len().saturating_sub(1),
            what: "the original panics".to_owned(),
        })
    })
}

fn both(ours: &mut Ours, session: &Session) -> Result<Outcome, Difference> {
    let mut outcome = Outcome::default();
    let function = open_all(ours, session, &mut outcome).map_err(|what| Difference {
        at: session.calls.len(),
        what,
    })?;
    let Some(function) = function else {
        return Ok(outcome);
    };
    let opened = ours.opened().map(<[u16]>::to_vec);
    let mut judge = calls::Session::new(&function);
    for (at, call) in session.calls.iter().enumerate() {
        let (refusal, edits) =
            one(ours, &mut judge, call).map_err(|what| Difference { at, what })?;
        outcome.resolved.push(refusal);
        outcome.edits += edits as u64;
    }
    if ours.opened() != [&opened[0][..], &opened[1][..]] {
        return Err(Difference {
            at: session.calls.len().saturating_sub(1),
            what: "the target or the function was changed by some call".to_owned(),
        });
    }
    Ok(outcome)
}

/// Opens the functions of a session: the last one, unless it is refused.
fn open_all(
    ours: &mut Ours,
    session: &Session,
    outcome: &mut Outcome,
) -> Result<Option<Function>, String> {
    let mut last = None;
    for opening in session.before.iter().chain([&session.opening]) {
        let &Opening {
            kept_evictions,
            ref bytes,
        } = opening;
        let judged = enough::enough_slots(kept_evictions, bytes);
        let expected = judged.map_or_else(|refused| (0, refused.0), |enough| (enough, 0));
        let given = ours.enough_slots(kept_evictions, bytes);
        if given != expected {
            return Err(format!(
                "the L to plan with and the refusal: {given:?}, of the judge {expected:?}"
            ));
        }
        let before = ours.cache().to_vec();
        let opened = Function::open(Judge::of(kept_evictions), bytes);
        let expected = opened.as_ref().map_or_else(|refused| refused.0, |_| 0);
        let refusal = ours.open(kept_evictions, bytes);
        if refusal != expected {
            return Err(format!("open gives {refusal}, the judge {expected}"));
        }
        if refusal == 0 {
            let made = ours.made();
            if made != 0 {
                return Err(format!("an opened function has {made} slots"));
            }
        } else if ours.cache() != before {
            return Err(format!("open, refused by {refusal}, changed the cache"));
        }
        outcome.opened.push(refusal);
        last = opened.ok();
    }
    Ok(last)
}

/// Makes one call: the refusal, and how many edits there are.
fn one(
    ours: &mut Ours,
    judge: &mut calls::Session<'_>,
    call: &Call,
) -> Result<(u8, usize), String> {
    let expected = judge.call(call);
    ours.fill_list();
    let list = ours.list().to_vec();
    let (words, number) = match &expected.outcome {
        Ok(words) => (&words[..], 0),
        Err(refused) => (&[][..], refused.0),
    };
    // If ours refuses what the judge takes, that is the difference.
    let cache = if number == 0 {
        Vec::new()
    } else {
        ours.cache().to_vec()
    };

    let (count, refusal, position) = ours.resolve(&call.free, &call.numbers, expected.room);
    if refusal != number {
        return Err(format!("refusal {refusal}, of the judge {number}"));
    }
    if count != words.len() {
        return Err(format!("{count} edits, of the judge {}", words.len()));
    }
    if ours.list()[..count] != *words {
        return Err(format!(
            "the edits {:?}, of the judge {words:?}",
            &ours.list()[..count]
        ));
    }
    if ours.list()[count..] != list[count..] {
        return Err(format!(
            "the list past {count} words was changed, with refusal {refusal}"
        ));
    }
    if refusal != 0 && ours.cache() != cache {
        return Err(format!("the cache was changed, with refusal {refusal}"));
    }
    let made = ours.made();
    if made != expected.made {
        return Err(format!("{made} slots made, by the judge {}", expected.made));
    }
    if refusal != 0 && position != NO_POSITION {
        return Err(format!("a position, with refusal {refusal}"));
    }
    if refusal == 0 && usize::from(position) != expected.position {
        return Err(format!(
            "position {position}, of the judge {}",
            expected.position
        ));
    }
    Ok((refusal, count))
}

/// Drops calls, entries and free units as long as there is a difference.
pub fn reduce(ours: &mut Ours, mut session: Session) -> Session {
    let mut differs = |session: &Session| compare(ours, session).err().map(|found| found.at);
    if let Some(at) = differs(&session) {
        session.calls.truncate(at + 1);
    }
    let mut lists = vec![List::Before, List::Calls];
    lists.extend((0..session.calls.len()).flat_map(|at| [List::Entries(at), List::Free(at)]));
    for list in lists {
        let mut next = list.len(&session);
        while next > 0 {
            next -= 1;
            let mut smaller = session.clone();
            if list.remove(&mut smaller, next) && differs(&smaller).is_some() {
                session = smaller;
            }
        }
    }
    session
}

/// A list of a session.
#[derive(Clone, Copy)]
enum List {
    Before,
    Calls,
    Entries(usize),
    Free(usize),
}

impl List {
    fn len(self, session: &Session) -> usize {
        match self {
            List::Before => session.before.len(),
            List::Calls => session.calls.len(),
            List::Entries(at) => session.calls.get(at).map_or(0, |c| c.numbers.len() / 4),
            List::Free(at) => session.calls.get(at).map_or(0, |c| c.free.len()),
        }
    }

    /// Removes one of it, unless it has become shorter.
    fn remove(self, session: &mut Session, index: usize) -> bool {
        if index >= self.len(session) {
            return false;
        }
        match self {
            List::Before => drop(session.before.remove(index)),
            List::Calls => drop(session.calls.remove(index)),
            List::Entries(at) => drop(session.calls[at].numbers.drain(4 * index..4 * index + 4)),
            List::Free(at) => drop(session.calls[at].free.remove(index)),
        }
        true
    }
}

/// A session in words.
pub fn text(session: &Session) -> String {
    let mut text = String::new();
    for opening in session.before.iter().chain([&session.opening]) {
        let Opening {
            kept_evictions,
            bytes,
        } = opening;
        put(
            &mut text,
            &format!("open setting {kept_evictions} {bytes:?}"),
        );
    }
    for call in &session.calls {
        let Call {
            free,
            numbers,
            room,
        } = call;
        let room = match room {
            Room::Most => String::new(),
            room => format!(" room {room:?}"),
        };
        put(
            &mut text,
            &format!("resolve free {free:?} entries {numbers:?}{room}"),
        );
    }
    text
}

fn put(text: &mut String, line: &str) {
    writeln!(text, "{line}").expect("writing to a string does not fail");
}
