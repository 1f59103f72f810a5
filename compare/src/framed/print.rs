//! What ours answers to recorded schedules.

use std::error::Error;

use judge::calls::{Call, MOST_EDITS};
use judge::number::Reader;
use judge::sharing::Given;
use judge::words;

use crate::ours::{Fault, Ours, Outcome, Preview};

fn read_list(reader: &mut Reader) -> Result<Vec<u32>, u8> {
    let count = reader.number().map_err(|refused| refused.0)?;
    (0..count)
        .map(|_| reader.number().map_err(|refused| refused.0))
        .collect()
}

/// The lines of a patch, or of its refusal.
fn lines(outcome: &Outcome, made: usize) -> Result<String, String> {
    match outcome {
        Err(number) => Ok(format!("refused {number}\n")),
        Ok((edits, position)) => {
            let head =
                ((*position as u64 * 65_536 + made as u64) * 65_536 + edits.len() as u64) * 8;
            Ok(words::answer(&[&[head], edits.as_slice()].concat(), 0)?.text)
        }
    }
}

/// What ours answers to one recorded schedule.
fn printed(ours: &mut Ours, bytes: &[u8]) -> Result<String, String> {
    let broken = |number: u8| format!("a record that cannot be read: {number}");
    let mut reader = Reader::new(bytes);
    let limit = reader.number().map_err(|refused| broken(refused.0))?;
    let shares = read_list(&mut reader).map_err(broken)?;
    let mut refusal = ours.open(limit, &shares);
    if refusal == 0 && shares.len() > 2 {
        // The library takes up to 16; this is what the program says.
        return Ok("more formulas than the two that this program takes\n".into());
    }
    let mut rest = &bytes[reader.place()..];
    for &share in &shares {
        if refusal != 0 {
            break;
        }
        reader = Reader::new(rest);
        let kept_evictions = reader.number().map_err(|refused| broken(refused.0))?;
        let length = reader.number().map_err(|refused| broken(refused.0))? as usize;
        let (bytes, after) = rest[reader.place()..].split_at(length);
        rest = after;
        let bytes = bytes.to_vec();
        refusal = ours.open_formula(&Given {
            kept_evictions,
            bytes,
            share,
        });
    }
    reader = Reader::new(rest);
    if refusal != 0 {
        return Ok(format!("refused {refusal}\n"));
    }
    let mut text = String::new();
    let mut left: [Option<Preview>; 2] = [None, None];
    let mut at = 0;
    while !reader.at_end() {
        at += 1;
        let formula = reader.number().map_err(|refused| broken(refused.0))? as usize - 1;
        let kind = reader.number().map_err(|refused| broken(refused.0))?;
        text += &format!("call {at} formula {}\n", formula + 1);
        if kind == 2 {
            let taken = left[formula]
                .as_ref()
                .map(|preview| ours.take(formula, preview));
            text += &match taken {
                None => "nothing to take\n".into(),
                Some(0) => "taken\n".into(),
                Some(number) => format!("refused {number}\n"),
            };
            continue;
        }
        let (free, numbers) = (
            read_list(&mut reader).map_err(broken)?,
            read_list(&mut reader).map_err(broken)?,
        );
        let call = Call {
            free,
            numbers,
            ..Call::default()
        };
        if kind == 0 {
            let outcome = ours.resolve(formula, &call, MOST_EDITS);
            text += &lines(&outcome, ours.made(formula))?;
            continue;
        }
        left[formula] = None;
        match ours.ask(formula, &call, MOST_EDITS) {
            Err(number) => text += &lines(&Err(number), 0)?,
            Ok((outcome, preview)) => {
                text += &lines(&outcome, preview.made.into())?;
                left[formula] = Some(preview);
            }
        }
    }
    Ok(text)
}

pub fn print_all(path: &str) -> Result<(), Box<dyn Error>> {
    let input = std::fs::read(path)?;
    let mut ours = Ours::new(Fault::None);
    let (mut rest, mut number) = (&input[..], 0);
    while let [low, high, after @ ..] = rest {
        let length = usize::from(u16::from_le_bytes([*low, *high]));
        number += 1;
        print!("frame {number}\n{}", printed(&mut ours, &after[..length])?);
        rest = &after[length..];
    }
    Ok(())
}
