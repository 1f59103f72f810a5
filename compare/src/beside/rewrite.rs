//! One job, taken apart into its numbers and written again by ours (request 02 a): it has
//! its old bytes, or the number of reading alone.

use judge::answer::MOST_BYTES;
use judge::number::Refused;
use judge::reading::{self, Read};

use crate::compare::{Difference, Outcome, Way};
use crate::ours::Ours;

/// So many bytes more than the job has are lent.
const MORE: usize = 11;

/// Compares what ours writes of a job's numbers with the job. Bytes that begin with
/// numbers and go on otherwise are taken as far as they are numbers.
pub fn compare(ours: &mut Ours, job: &[u8], way: Way) -> Result<Outcome, Box<Difference>> {
    let (numbers, all) = reading::numbers(job);
    let bytes = reading::bytes(&numbers);
    if all != (bytes == job) {
        return Err(wrong("the judge's own bytes differ".to_owned(), None, &[]));
    }
    let judged = reading::read(&bytes);
    // Reading the job itself comes to the same, unless what is no number takes it over the
    // limit of bytes, or follows numbers that are a whole job.
    let whole = reading::read(job);
    let over = job.len() > MOST_BYTES && bytes.len() <= MOST_BYTES;
    let followed = whole == Err(Refused(8)) && judged.is_ok();
    if whole != judged && (all || !(over || followed)) {
        let what = format!("the judge reads {whole:?} and {judged:?}");
        return Err(wrong(what, None, &bytes));
    }
    if way.spoiled.is_some() {
        let (count, refusal) = ours.write(&numbers, bytes.len() + MORE);
        let refusal = match ours.spoil_written(count) {
            true => refusal,
            false => refusal ^ 1,
        };
        judge(ours, &bytes, judged, bytes.len() + MORE, (count, refusal))?;
    }
    same(ours, &numbers, &bytes, judged, bytes.len() + MORE)?;
    if way.with_little_room {
        for room in [
            bytes.len(),
            bytes.len().saturating_sub(1),
            bytes.len() / 2,
            0,
        ] {
            let judged = match judged {
                Ok(_) if room < bytes.len() => Err(Refused(18)),
                judged => judged,
            };
            same(ours, &numbers, &bytes, judged, room)?;
        }
        // With zeros behind it, up to the limit of bytes and one past it.
        for length in [MOST_BYTES, MOST_BYTES + 1] {
            let zeros = vec![0; length.saturating_sub(bytes.len())];
            let numbers: Vec<u32> = numbers.iter().chain(&zeros).copied().collect();
            let bytes = reading::bytes(&numbers);
            same(
                ours,
                &numbers,
                &bytes,
                reading::read(&bytes),
                MOST_BYTES + 1,
            )?;
        }
    }
    let read = judged.unwrap_or_default();
    Ok(Outcome {
        refusal: judged.map_or_else(|refused| refused.0, |_| 0),
        patches: read.patches as u64,
        edits: read.entries as u64,
        text: String::new(),
        reached: Default::default(),
        slots_by_size: None,
        priced: None,
    })
}

/// Has ours write numbers into so many lent bytes, and sees that it comes to what is
/// judged.
fn same(
    ours: &mut Ours,
    numbers: &[u32],
    bytes: &[u8],
    judged: Result<Read, Refused>,
    room: usize,
) -> Result<(), Box<Difference>> {
    let given = ours.write(numbers, room);
    judge(ours, bytes, judged, room, given)
}

/// Whether what ours wrote and gave is as judged, and no other byte is written.
fn judge(
    ours: &Ours,
    bytes: &[u8],
    judged: Result<Read, Refused>,
    room: usize,
    (count, refusal): (usize, u8),
) -> Result<(), Box<Difference>> {
    let expected = match judged {
        Ok(_) => (bytes.len(), 0),
        Err(refused) => (0, refused.0),
    };
    if (count, refusal) != expected {
        let what = format!(
            "with room for {room} bytes ours writes {count} and gives {refusal}, of the judge \
             {expected:?}"
        );
        return Err(wrong(what, Some(refusal), bytes));
    }
    if ours.written(count) != Some(&bytes[..count]) {
        return Err(wrong("other bytes".to_owned(), Some(refusal), bytes));
    }
    match ours.is_left_alone(count) {
        true => Ok(()),
        false => {
            let what = format!("a byte past the {count} written is changed, with room for {room}");
            Err(wrong(what, Some(refusal), bytes))
        }
    }
}

fn wrong(what: String, refusal: Option<u8>, bytes: &[u8]) -> Box<Difference> {
    let judged = match reading::read(bytes) {
        Ok(_) => "written\n".to_owned(),
        Err(refused) => format!("refused {}\n", refused.0),
    };
    let printed = refusal.map_or(String::new(), |number| match number {
        0 => "written\n".to_owned(),
        number => format!("refused {number}\n"),
    });
    Box::new(Difference {
        what,
        judged,
        printed,
        decoded: String::new(),
    })
}
