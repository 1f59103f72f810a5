//! Schedules of two formulas that share a frame, recorded with what request 02 l makes of them
//! (`judge::sharing`): the schedules as numbers, and what is answered as text.

use std::error::Error;
use std::fmt::Write as _;
use std::fs;

use judge::calls::{Call, Function};
use judge::generate::calls as generate;
use judge::number;
use judge::random::Random;
use judge::sharing::{self, Asked, Expected, Frame, Given};
use judge::words;

const HELP: &str = "\
schedules SEED COUNT STDIN STDOUT
    Writes the trials of request 02 l's design and COUNT random schedules to STDIN, and to STDOUT
    what is to be printed of them.
";

/// What the program says of a frame that it has no tables for.
const TOO_MANY: &str = "more formulas than the two that this program takes\n";

/// A record is shorter than this.
const MOST_BYTES: usize = 4000;

enum Kind {
    Resolve(Call),
    Ask(Call),
    Take,
}

/// A frame of two formulas, and calls of them.
struct Schedule {
    limit: u32,
    shares: Vec<u32>,
    given: Vec<Given>,
    calls: Vec<(usize, Kind)>,
}

fn put_list(bytes: &mut Vec<u8>, list: &[u32]) {
    number::put(bytes, list.len() as u32);
    for &item in list {
        number::put(bytes, item);
    }
}

impl Schedule {
    /// As the program reads it.
    fn bytes(&self) -> Vec<u8> {
        let mut bytes = Vec::new();
        number::put(&mut bytes, self.limit);
        put_list(&mut bytes, &self.shares);
        for Given { kept_evictions, bytes: opening, .. } in &self.given {
            number::put(&mut bytes, *kept_evictions);
            number::put(&mut bytes, opening.len() as u32);
            bytes.extend(opening);
        }
        for (formula, kind) in &self.calls {
            number::put(&mut bytes, *formula as u32 + 1);
            match kind {
                Kind::Resolve(call) | Kind::Ask(call) => {
                    number::put(&mut bytes, u32::from(matches!(kind, Kind::Ask(_))));
                    put_list(&mut bytes, &call.free);
                    put_list(&mut bytes, &call.numbers);
                }
                Kind::Take => number::put(&mut bytes, 2),
            }
        }
        bytes
    }

    /// What is to be printed of it, after its number.
    fn text(&self) -> Result<String, Box<dyn Error>> {
        if let Err(refused) = sharing::open_frame(self.limit, &self.shares) {
            return Ok(format!("refused {}\n", refused.0));
        }
        if self.shares.len() > 2 {
            return Ok(TOO_MANY.into());
        }
        let mut functions: Vec<(Function, u32)> = Vec::new();
        for (given, &share) in self.given.iter().zip(&self.shares) {
            let first = functions.first().map(|(function, _)| sharing::slots(function));
            match sharing::open_formula(given, first) {
                Ok(function) => functions.push((function, share)),
                Err(refused) => return Ok(format!("refused {}\n", refused.0)),
            }
        }
        let mut frame = Frame::new(self.limit, &functions);
        let mut left: Vec<Option<Asked>> = vec![None, None];
        let mut text = String::new();
        for (at, (formula, kind)) in self.calls.iter().enumerate() {
            writeln!(text, "call {} formula {}", at + 1, formula + 1)?;
            match kind {
                Kind::Resolve(call) => text += &answer(&frame.resolve(*formula, call))?,
                Kind::Ask(call) => {
                    let (expected, asked) = frame.ask(*formula, call);
                    left[*formula] = expected.outcome.is_ok().then_some(asked);
                    text += &answer(&expected)?;
                }
                // Where no asking left something, no take is made.
                Kind::Take => match left[*formula].as_ref().map(|asked| frame.take(*formula, asked)) {
                    Some(Ok(_)) => text += "taken\n",
                    Some(Err(refused)) => writeln!(text, "refused {}", refused.0)?,
                    None => text += "nothing to take\n",
                },
            }
        }
        Ok(text)
    }
}

/// The lines of a patch, or of its refusal.
fn answer(expected: &Expected) -> Result<String, Box<dyn Error>> {
    match &expected.outcome {
        Err(refused) => Ok(format!("refused {}\n", refused.0)),
        Ok((edits, position)) => {
            let head = ((*position as u64 * 65_536 + expected.made as u64) * 65_536 + edits.len() as u64) * 8;
            Ok(words::answer(&[&[head], edits.as_slice()].concat(), 0)?.text)
        }
    }
}

/// The design's trials: the target of swap-full, two values and so many ordinary slots.
fn trials() -> Vec<Schedule> {
    let opening = |slots: u8| {
        vec![
            3, 1, 3, 0, 1, 3, 0, 0, 1, 0, 0, 0, 1, 1, 0, 0, 1, 2, 2, // units, bank, registers
            0, 1, 3, 0, 1, 2, 3, 0, 1, 2, 0, 0, 3, 0, 1, 2, 3, 0, 1, 2, // classes
            2, slots, 0, 0, 0, 0, 0, // values and slots; L is 0
        ]
    };
    let patch = |moves: &[(u32, u32)]| Call {
        numbers: moves.iter().zip(0..).flat_map(|(&(from, to), value)| [0, from, to, value]).collect(),
        ..Call::default()
    };
    // A slot's code is even, a register's odd.
    let swap = || patch(&[(1, 3), (3, 1)]);
    let chain = || patch(&[(1, 3), (3, 5)]);
    let exchanged = || patch(&[(0, 2), (2, 0)]);
    let two = |slots: u8, limit: u32, shares: [u32; 2], kept_evictions: u32, calls: Vec<(usize, Kind)>| Schedule {
        limit,
        shares: shares.to_vec(),
        given: shares.map(|share| Given { kept_evictions, bytes: opening(slots), share }).to_vec(),
        calls,
    };
    use Kind::{Ask, Resolve, Take};
    vec![
        two(0, 1, [1, 0], 1, vec![(1, Resolve(swap())), (0, Resolve(swap())), (1, Resolve(swap()))]),
        two(0, 2, [0, 0], 1, vec![(0, Resolve(swap())), (1, Resolve(swap())), (0, Resolve(swap()))]),
        two(2, 2, [1, 1], 1, vec![(0, Resolve(exchanged())), (0, Resolve(swap())), (1, Resolve(swap()))]),
        two(2, 3, [1, 1], 1, vec![(0, Resolve(exchanged())), (1, Resolve(exchanged())), (1, Resolve(swap()))]),
        two(0, 2, [0, 0], 1, vec![(0, Ask(swap())), (1, Resolve(swap())), (0, Take), (0, Ask(swap())), (0, Take)]),
        two(0, 2, [0, 0], 1, vec![(0, Ask(chain())), (1, Resolve(swap())), (0, Take)]),
        two(0, 2, [0, 0], 1, vec![(1, Resolve(swap())), (0, Ask(swap())), (1, Resolve(swap())), (0, Take)]),
        two(0, 2, [2, 1], 3, vec![]),
        Schedule { limit: 3, shares: vec![1; 3], given: vec![], calls: vec![] },
    ]
}

/// The limit and the shares, mostly within it.
fn shares(random: &mut Random) -> (u32, Vec<u32>) {
    let limit = match random.below(30) {
        0 => 2049,
        1 => 2048,
        _ => random.below(8) as u32,
    };
    let first = random.below(limit.min(4) as usize + 1) as u32;
    let second = random.below((limit.min(2048) - first).min(4) as usize + 1) as u32;
    match random.below(30) {
        0 => (limit, vec![first, limit - first + 1]),
        // A sum that starts over as a number of 32 bits.
        1 => (limit, vec![first.max(1), u32::MAX]),
        2 => (limit, vec![]),
        3 => (limit, vec![0; 17]),
        _ => (limit, vec![first, second]),
    }
}

fn schedule(random: &mut Random) -> Schedule {
    let (limit, shares) = shares(random);
    let mut first = generate::session(random, 12, &[1, 2]);
    let mut second = generate::session(random, 12, &[1, 2]);
    if !random.chance(10) {
        // Mostly the same function, so of the same N.
        second.opening.bytes = first.opening.bytes.clone();
        second.calls = first.calls.clone();
        random.shuffle(&mut second.calls);
    }
    if random.chance(3) {
        second.opening.kept_evictions = *random.pick(&generate::NO_SETTINGS);
    }
    let given = [&first, &second].map(|session| Given {
        kept_evictions: session.opening.kept_evictions,
        bytes: session.opening.bytes.clone(),
        share: 0,
    });
    let mut patches = [std::mem::take(&mut first.calls), std::mem::take(&mut second.calls)];
    let mut calls = Vec::new();
    while patches.iter().any(|left| !left.is_empty()) {
        let formula = random.below(2);
        if let Some(call) = patches[formula].pop() {
            // The program lends a list that is always long enough.
            let Call { free, numbers, .. } = call;
            let call = Call { free, numbers, ..Call::default() };
            let kind = if random.chance(50) { Kind::Ask(call) } else { Kind::Resolve(call) };
            calls.push((formula, kind));
        }
        while random.chance(35) {
            calls.push((random.below(2), Kind::Take));
        }
    }
    Schedule { limit, shares, given: given.to_vec(), calls }
}

fn main() -> Result<(), Box<dyn Error>> {
    let arguments: Vec<String> = std::env::args().skip(1).collect();
    let [seed, count, stdin, stdout] = &arguments[..] else {
        eprint!("{HELP}");
        return Err("four words are wanted".into());
    };
    let mut random = Random::new(seed.parse()?);
    let mut schedules = trials();
    let wanted = schedules.len() + count.parse::<usize>()?;
    while schedules.len() < wanted {
        let schedule = schedule(&mut random);
        if schedule.bytes().len() < MOST_BYTES && schedule.calls.iter().all(|(_, kind)| fits(kind)) {
            schedules.push(schedule);
        }
    }
    let (mut input, mut text) = (Vec::new(), String::new());
    for (at, schedule) in schedules.iter().enumerate() {
        let bytes = schedule.bytes();
        input.extend((bytes.len() as u16).to_le_bytes());
        input.extend(&bytes);
        writeln!(text, "frame {}", at + 1)?;
        text += &schedule.text()?;
    }
    fs::write(stdin, input)?;
    fs::write(stdout, text)?;
    Ok(())
}

/// Whether a call's lists fit the program's.
fn fits(kind: &Kind) -> bool {
    match kind {
        Kind::Resolve(call) | Kind::Ask(call) => call.free.len() <= 1024 && call.numbers.len() <= 1024,
        Kind::Take => true,
    }
}
