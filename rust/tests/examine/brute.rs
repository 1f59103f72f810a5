//! Brute force over all starts of a tiny target: three registers, slots s0 (ordinary) and s1,
//! values 0 and 1, of which 1 can be rebuilt by all registers.

use parallel_moves::{Allocation, Fault, examine, first_fault, text};

use crate::{three, word};

const WORDS: [&[u8]; 7] = [&[], &[0], &[1], &[0, 0], &[0, 1], &[1, 0], &[1, 1]];

/// Places 0 to 2 are registers, 3 and 4 the slots.
#[derive(Clone, Copy, PartialEq)]
enum Step {
    Move(usize, usize),
    Remat(usize, usize),
    Save(usize, usize),
    Load(usize, usize),
}

struct Draw(u64);

impl Draw {
    fn below(&mut self, n: usize) -> usize {
        self.0 ^= self.0 << 13;
        self.0 ^= self.0 >> 7;
        self.0 ^= self.0 << 17;
        (self.0 >> 11) as usize % n
    }
}

type Held = [&'static [u8]; 5];

/// What is held in the end, or which edit cannot be done.
fn run(list: &[Step], start: Held, content: [&'static [u8]; 2]) -> Result<Held, usize> {
    let mut held = start;
    for (index, &step) in list.iter().enumerate() {
        match step {
            Step::Move(to, from) => {
                if to >= 3 && from >= 3 || to < 3 && held[from].len() != 1 {
                    return Err(index);
                }
                held[to] = held[from];
            }
            Step::Remat(to, value) => {
                if value != 1 || to >= 3 {
                    return Err(index);
                }
                held[to] = content[value];
            }
            Step::Save(to, from) => held[to] = held[from],
            Step::Load(to, from) => {
                if held[from].len() != 1 {
                    return Err(index);
                }
                held[to] = held[from];
            }
        }
    }
    Ok(held)
}

/// A patch: its moves, source, destination and value; rebuilds of value 1; a free register.
struct Asked {
    moves: Vec<(usize, usize, usize)>,
    remats: Vec<usize>,
    free: Option<usize>,
}

/// What all starts together say of a list.
#[derive(Default)]
struct Judged {
    /// The first edit that cannot be done from some start.
    stuck: Option<usize>,
    /// The places that are wrong in the end from some start.
    wrong: [bool; 5],
}

impl Judged {
    fn right(&self) -> bool {
        self.stuck.is_none() && !self.wrong.contains(&true)
    }
}

fn judged(asked: &Asked, list: &[Step]) -> Judged {
    let mut judged = Judged::default();
    for combination in 0..8 * 49 * 4 {
        let (registers, slots, contents) =
            (combination % 8, combination / 8 % 49, combination / 392);
        let one = |bit: usize| WORDS[1 + (bit & 1)];
        let start = [
            one(registers),
            one(registers >> 1),
            one(registers >> 2),
            WORDS[slots % 7],
            WORDS[slots / 7],
        ];
        let content = [one(contents), one(contents >> 1)];
        let mut moves = asked.moves.iter();
        if moves.any(|&(source, _, value)| start[source] != content[value]) {
            continue;
        }
        match run(list, start, content) {
            Err(index) => judged.stuck = Some(judged.stuck.map_or(index, |at| at.min(index))),
            Ok(end) => {
                // N is 1: the second slot may hold anything.
                for place in 0..4 {
                    judged.wrong[place] |= !asked.is_right(place, start, content, end);
                }
            }
        }
    }
    judged
}

impl Asked {
    fn is_right(&self, place: usize, start: Held, content: [&[u8]; 2], end: Held) -> bool {
        let move_to = self.moves.iter().find(|&&(_, to, _)| to == place);
        if let Some(&(_, _, value)) = move_to {
            return end[place] == content[value];
        }
        if self.remats.contains(&place) {
            return end[place] == content[1];
        }
        self.free == Some(place) || end[place] == start[place]
    }
}

fn named(place: usize) -> String {
    if place < 3 {
        format!("r{place}")
    } else {
        format!("s{}", place - 3)
    }
}

fn printed(step: Step) -> String {
    match step {
        Step::Move(to, from) => format!("M {} {} 0", named(to), named(from)),
        Step::Remat(to, value) => format!("R {} {value}", named(to)),
        Step::Save(to, from) => format!("S {} {}", named(to), named(from)),
        Step::Load(to, from) => format!("L {} {}", named(to), named(from)),
    }
}

/// A patch that is accepted, with its job.
fn drawn(draw: &mut Draw) -> (Asked, Vec<u8>) {
    loop {
        let mut asked = Asked {
            moves: Vec::new(),
            remats: Vec::new(),
            free: None,
        };
        let mut patch = String::new();
        if draw.below(3) == 0 {
            let free = draw.below(3);
            asked.free = Some(free);
            patch += &format!(" free {free}");
        }
        patch.push('\n');
        for _ in 0..1 + draw.below(3) {
            let (source, to, value) = (draw.below(4), draw.below(4), draw.below(2));
            if value == 1 && draw.below(3) == 0 {
                patch += &format!("  rebuild v1 in {}\n", named(to));
                asked.remats.push(to);
            } else {
                patch += &format!("  move v{value} from {} to {}\n", named(source), named(to));
                // Rebuilt, since its source is memory, or kept.
                if value == 1 && source >= 3 {
                    asked.remats.push(to);
                } else {
                    asked.moves.push((source, to, value));
                }
            }
        }
        let text = format!(
            "slots 1\nemergency-slots 1\nvalue v0 bank b0\nvalue v1 bank b0 rebuilt cheaper-than-load by c1\npatch 1{patch}"
        );
        let made = std::panic::catch_unwind(|| three(&text));
        if let Ok(job) = made
            && examine(&job, 0, &[]).is_ok()
        {
            return (asked, job);
        }
    }
}

/// The edit of a word.
fn step_of(word: u64) -> Step {
    let place = |code: u64| match code % 2 {
        1 => (code / 2) as usize,
        _ => 3 + (code / 2) as usize,
    };
    let (to, from) = (place(word / 8 % 16_384), place(word / 131_072 % 16_384));
    match word % 8 {
        1 => Step::Move(to, from),
        2 => Step::Remat(to, (word >> 31) as usize),
        3 => Step::Save(to, from),
        _ => Step::Load(to, from),
    }
}

fn drawn_step(draw: &mut Draw) -> Step {
    match draw.below(8) {
        0 => Step::Remat(draw.below(5), draw.below(2)),
        1 => Step::Save(3 + draw.below(2), draw.below(3)),
        2 => Step::Load(draw.below(3), 3 + draw.below(2)),
        _ => Step::Move(draw.below(5), draw.below(5)),
    }
}

/// The same edit with another operand.
fn with_other_operand(draw: &mut Draw, step: Step) -> Step {
    let first = draw.below(2) == 0;
    let other = |draw: &mut Draw, now: usize, from: usize, count: usize| {
        from + (now - from + 1 + draw.below(count - 1)) % count
    };
    match step {
        Step::Move(to, from) if first => Step::Move(other(draw, to, 0, 5), from),
        Step::Move(to, from) => Step::Move(to, other(draw, from, 0, 5)),
        Step::Remat(to, value) if first => Step::Remat(other(draw, to, 0, 5), value),
        Step::Remat(to, value) => Step::Remat(to, 1 - value),
        Step::Save(to, from) if first => Step::Save(other(draw, to, 3, 2), from),
        Step::Save(to, from) => Step::Save(to, other(draw, from, 0, 3)),
        Step::Load(to, from) if first => Step::Load(other(draw, to, 0, 3), from),
        Step::Load(to, from) => Step::Load(to, other(draw, from, 3, 2)),
    }
}

/// How a list came about.
const KINDS: [&str; 5] = ["ours", "operand", "exchanged", "left out", "random"];

/// A list of a kind: our own, or changed in one place, or at random. None if ours is too
/// short to be so changed.
fn list_of(kind: usize, draw: &mut Draw, ours: &[Step]) -> Option<Vec<Step>> {
    let mut list = ours.to_vec();
    let count = list.len();
    match KINDS[kind] {
        "ours" => (),
        "operand" if count > 0 => {
            let at = draw.below(count);
            list[at] = with_other_operand(draw, list[at]);
        }
        "exchanged" if count > 1 => {
            let at = draw.below(count);
            list.swap(at, (at + 1 + draw.below(count - 1)) % count);
        }
        "left out" if count > 0 => {
            list.remove(draw.below(count));
        }
        "random" => list = (0..draw.below(6)).map(|_| drawn_step(draw)).collect(),
        _ => return None,
    }
    Some(list)
}

/// Whether a fault, of a no or none of a yes, is what all starts say.
fn is_fault(found: &Judged, fault: Option<Fault>) -> bool {
    let place = |place: Allocation| place_of(&place.to_string());
    match (found.stuck, fault) {
        (Some(stuck), Some(Fault::Edit { index, .. })) => index == stuck,
        (Some(_), _) => false,
        (None, None) => found.right(),
        (None, Some(Fault::Edit { .. })) => false,
        (None, Some(Fault::Destination { place: at, .. })) => found.wrong[place(at)],
        (None, Some(Fault::Unit { register, .. })) => found.wrong[place(register.into())],
        (None, Some(Fault::Slot(slot))) => found.wrong[place(slot.into())],
        (None, Some(_)) => false,
    }
}

fn place_of(name: &str) -> usize {
    let number: usize = name[1..].parse().unwrap();
    if name.starts_with('r') {
        number
    } else {
        3 + number
    }
}

#[test]
fn beside_brute_force() {
    let number = |name: &str, or: u64| std::env::var(name).map_or(or, |n| n.parse().unwrap());
    let (seed, lists) = (number("EXAMINE_SEED", 7), number("EXAMINE_LISTS", 3000));
    let mut draw = Draw(seed * 2 + 1);
    std::panic::set_hook(Box::new(|_| ()));
    // Of each kind how many there were, and how many of them are a yes.
    let mut counts = [[0u64; 2]; KINDS.len()];
    let mut resolver = parallel_moves::Resolver::new();
    while counts.iter().map(|[all, _]| all).sum::<u64>() < lists {
        let (asked, job) = drawn(&mut draw);
        let answer = resolver.answer(1, &job).ok();
        let patch = answer.as_ref().and_then(|answer| answer.patches().next());
        let ours: Option<Vec<Step>> = patch.map(|patch| {
            let words = patch.edits().words().iter();
            words.map(|&word| step_of(word)).collect()
        });
        for turn in 0..20 {
            // Ours once, and of the rest half at random.
            let kind = match turn {
                0 => 0,
                1..10 => 1 + turn % 3,
                _ => 4,
            };
            let list = match &ours {
                Some(ours) => list_of(kind, &mut draw, ours),
                None => (kind == 4).then(|| list_of(4, &mut draw, &[])).flatten(),
            };
            let Some(list) = list else { continue };
            let text: Vec<String> = list.iter().map(|&step| printed(step)).collect();
            let list_words: Vec<u64> = text.iter().map(|edit| word(edit)).collect();
            let found = judged(&asked, &list);
            let said = examine(&job, 0, &list_words);
            let fault = first_fault(&job, 0, &list_words);
            if said != Ok(found.right()) || !is_fault(&found, fault) {
                let _ = std::panic::take_hook();
                let right = found.right();
                let job = text::from_bytes(&job).unwrap();
                panic!("{text:?} is {right}, and {said:?}, {fault:?} is said: {job}");
            }
            counts[kind][0] += 1;
            counts[kind][1] += u64::from(found.right());
        }
    }
    let _ = std::panic::take_hook();
    for (kind, [all, yes]) in KINDS.into_iter().zip(counts) {
        println!("{kind}: {all} lists, {yes} yes, {} no", all - yes);
        assert!(all > 0 && yes > 0, "{kind}: {all} lists, {yes} yes");
        assert_eq!(all == yes, kind == "ours", "{kind}: {all} lists, {yes} yes");
    }
}
