//! One job, answered by the judge of a setting and by ours.

use std::collections::BTreeMap;

use judge::answer::{self, Judge};
use judge::generate::calls::NO_SETTINGS;
use judge::plain::Reached;
use judge::words;

use crate::ours::Ours;
use crate::priced::Priced;

/// How a job is compared.
#[derive(Clone, Copy, Default)]
pub struct Way {
    /// Also with too little room for the words, and for the text, and at settings
    /// that are none.
    pub with_little_room: bool,
    /// Ours' answer is spoiled first, to see that it is found.
    pub spoiled: Option<Spoiled>,
    /// Its L is planned anew.
    pub planned: bool,
    /// It is written again, and not answered.
    pub rewritten: bool,
    /// What its patches cost is asked for, as the seed decides.
    pub priced: Option<u64>,
    /// Both settings are tried on its function, as the seed decides, and nothing else.
    pub tried: Option<u64>,
}

/// What of an answer is spoiled.
#[derive(Clone, Copy, PartialEq, Eq)]
pub enum Spoiled {
    Text,
    /// The last word, or the refusal if there are none.
    Words,
}

/// What both say of a job.
pub struct Outcome {
    /// 0 if the job is accepted.
    pub refusal: u8,
    pub patches: u64,
    pub edits: u64,
    pub text: String,
    pub reached: Reached,
    /// Of a job with its L planned anew: how many slots it makes of each size.
    pub slots_by_size: Option<BTreeMap<usize, usize>>,
    /// Of a job whose patches' prices are asked for.
    pub priced: Option<Priced>,
}

/// What is not the same.
pub struct Difference {
    pub what: String,
    /// What the judge prints.
    pub judged: String,
    /// What ours prints.
    pub printed: String,
    /// What the words of ours come to.
    pub decoded: String,
}

/// Compares the answers to a job at a setting.
pub fn compare(
    ours: &mut Ours,
    kept_evictions: u32,
    job: &[u8],
    way: Way,
) -> Result<Outcome, Box<Difference>> {
    let judged = answer::answer(Judge::of(kept_evictions), job);
    let (count, mut refusal) = ours.answer(kept_evictions, job, None);
    let printed = ours.text(count, refusal, None).unwrap_or_default();
    let length = printed.len();
    let same_text = printed == judged.text.as_bytes() && way.spoiled != Some(Spoiled::Text);
    let printed = (!same_text).then(|| {
        let mut text = String::from_utf8_lossy(printed).into_owned();
        if way.spoiled == Some(Spoiled::Text) {
            text.push_str("spoiled\n");
        }
        text
    });
    if way.spoiled == Some(Spoiled::Words) {
        match ours.words(count).and_then(|words| words.last_mut()) {
            Some(word) => *word ^= 1 << 20,
            None => refusal ^= 1,
        }
    }
    let decoded = match ours.words(count) {
        Some(words) => words::answer(words, refusal),
        None => Err(format!("{count} words")),
    };

    let what = match &decoded {
        _ if !same_text => "the text that ours prints".to_owned(),
        Err(wrong) => format!("the words of ours: {wrong}"),
        Ok(decoded) if decoded.text != judged.text => "the words of ours".to_owned(),
        Ok(decoded) if decoded.positions != judged.positions => format!(
            "the positions {:?}, of the judge {:?}",
            decoded.positions, judged.positions
        ),
        Ok(decoded) => {
            let wrong = if way.with_little_room {
                let room = little_room(ours, kept_evictions, job, count, refusal, length);
                room.or_else(|| no_setting(ours, job))
            } else {
                None
            };
            match wrong {
                Some(wrong) => wrong,
                None => {
                    return Ok(Outcome {
                        refusal,
                        patches: decoded.patches,
                        edits: decoded.edits,
                        text: judged.text,
                        reached: judged.reached,
                        slots_by_size: None,
                        priced: None,
                    });
                }
            }
        }
    };
    Err(Box::new(Difference {
        what,
        printed: printed.unwrap_or_else(|| judged.text.clone()),
        judged: judged.text,
        decoded: decoded.map_or_else(|wrong| format!("{wrong}\n"), |decoded| decoded.text),
    }))
}

/// What ours does wrong when it has too little room, if anything.
fn little_room(
    ours: &mut Ours,
    kept_evictions: u32,
    job: &[u8],
    count: usize,
    refusal: u8,
    length: usize,
) -> Option<String> {
    // The text first: the words of the whole answer are still there.
    for room in [0, length / 2, length - 1] {
        if let Some(text) = ours.text(count, refusal, Some(room)) {
            let given = text.len();
            return Some(format!("{given} bytes of text, with room for {room}"));
        }
    }
    let whole = ours.words(count).map(|words| words.to_vec())?;
    for room in [0, count / 2, count.saturating_sub(1)] {
        if room < count
            && let Some(wrong) = short_list(ours, kept_evictions, job, &whole, room)
        {
            return Some(format!("with room for {room} words of {count}: {wrong}"));
        }
    }
    None
}

/// What a word is that is to be left alone.
const LEFT_ALONE: u64 = u64::MAX / 5;

/// What ours does wrong at a setting that is none, if anything: it gives 22, whatever
/// the job and the room, and leaves the list alone.
fn no_setting(ours: &mut Ours, job: &[u8]) -> Option<String> {
    const WATCHED: usize = 64;
    ours.words(WATCHED)?.fill(LEFT_ALONE);
    for setting in NO_SETTINGS {
        for room in [None, Some(0)] {
            let (given, number) = ours.answer(setting, job, room);
            let text = ours.text(given, number, None);
            if (given, number) != (0, 22) || text != Some(b"refused 22\n") {
                return Some(format!(
                    "at setting {setting}: {given} words and refusal {number}"
                ));
            }
        }
    }
    let written = ours.words(WATCHED)?.iter().any(|&word| word != LEFT_ALONE);
    written.then(|| "words written at a setting that is none".to_owned())
}

/// What ours does wrong with a list that is too short, if anything: it gives 16
/// and some of the first patches, and leaves the rest of the list alone.
fn short_list(
    ours: &mut Ours,
    kept_evictions: u32,
    job: &[u8],
    whole: &[u64],
    room: usize,
) -> Option<String> {
    ours.words(whole.len())?.fill(LEFT_ALONE);
    let (given, number) = ours.answer(kept_evictions, job, Some(room));
    if number != 16 || given > room {
        return Some(format!("{given} words and refusal {number}"));
    }
    let words = ours.words(whole.len())?;
    if words[given..].iter().any(|&word| word != LEFT_ALONE) {
        return Some(format!("of {given} words, some past them are written"));
    }
    let mut end = 0;
    while end < given {
        end += 1 + (whole[end] / 8 % 65_536) as usize;
    }
    (words[..given] != whole[..given] || end != given).then(|| "other words".to_owned())
}
