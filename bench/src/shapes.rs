//! Times of patches of one shape each, with their spread, and which of them
//! take longer than in the original.

use crate::draft::{Draft, Entry, Patch, Place};
use crate::growth::{self, Kind};
use crate::jobs::{self, Row};
use crate::pairs::{Memory, Pair, Taken, time_patches};
use crate::random::Random;
use crate::time::{Clock, median, part};

/// Both sides take turns: so many medians are made of each shape, each of so
/// many calls.
const REPETITIONS: usize = 15;
const ROUNDS: usize = 401;

struct Shape {
    name: String,
    draft: Draft,
}

pub fn print() {
    let clock = Clock::new();
    let shapes = shapes();
    println!(
        "Nanoseconds of adding and resolving, medians of {REPETITIONS} repetitions; the ratio with its least and greatest.\n"
    );
    println!("| shape | original | ours | ratio | from | to |\n|---|---|---|---|---|---|");
    let mut above = Vec::new();
    for (shape, taken) in shapes.iter().zip(repetitions(&clock, &shapes)) {
        let of = |time: fn(&Taken) -> f64| taken.iter().map(time).collect::<Vec<f64>>();
        let ratio = median(of(|taken| taken.ratio()));
        println!(
            "| {} | {:.0} | {:.0} | {ratio:.2} | {:.2} | {:.2} |",
            shape.name,
            median(of(|taken| taken.theirs)),
            median(of(|taken| taken.ours)),
            part(of(|taken| taken.ratio()), 0),
            part(of(|taken| taken.ratio()), 100)
        );
        if ratio > 1.0 {
            above.push(format!("{} ({ratio:.2})", shape.name));
        }
    }
    match above.len() {
        0 => println!("\nNo shape is above 1.0."),
        _ => println!("\nAbove 1.0: {}.", above.join(", ")),
    }
}

/// Of each shape what the repetitions took.
fn repetitions(clock: &Clock, shapes: &[Shape]) -> Vec<Vec<Taken>> {
    let mut memory = Memory::new();
    let mut pairs: Vec<Pair> = shapes
        .iter()
        .map(|shape| Pair::open(&shape.draft))
        .collect();
    for pair in &mut pairs {
        for _ in 0..3 {
            pair.compare(&mut memory);
        }
    }
    let mut taken: Vec<Vec<Taken>> = shapes.iter().map(|_| Vec::new()).collect();
    for _ in 0..REPETITIONS {
        let round = time_patches(clock, &mut pairs, &mut memory, ROUNDS);
        for (all, one) in taken.iter_mut().zip(round) {
            all.push(one);
        }
    }
    taken
}

fn shapes() -> Vec<Shape> {
    let mut shapes = vec![
        of_kind("one move", Kind::Flat, 1, None),
        of_kind("a swap, one unit free", Kind::Swaps, 2, Some(130)),
    ];
    for count in [8, 32, 128] {
        let name = format!("chain of {count}, last move first");
        shapes.push(of_kind(&name, Kind::Chain, count, None));
    }
    for count in [8, 32, 128] {
        let name = format!("rotation of {count}, one unit free");
        shapes.push(of_kind(&name, Kind::Rotation, count, Some(130)));
    }
    for count in [1, 16, 128] {
        shapes.push(remats(count, false));
    }
    for count in [16, 128] {
        shapes.push(remats(count, true));
    }
    for row in jobs::rows() {
        if row.target == "shipped" && row.size == "16 to 128" {
            shapes.extend([16, 128].map(|count| mixed(&row, count)));
        }
    }
    shapes
}

fn of_kind(name: &str, kind: Kind, count: usize, free: Option<usize>) -> Shape {
    Shape {
        name: name.to_string(),
        draft: growth::entries_job(kind, count, Place::Register, free),
    }
}

/// As many registers rebuilt, in the order of their numbers or in a random one.
fn remats(count: usize, shuffled: bool) -> Shape {
    let mut entries: Vec<Entry> = (0..count)
        .map(|index| Entry {
            source: None,
            dest: Place::Register(index + 1),
            value: index,
        })
        .collect();
    if shuffled {
        let mut random = Random::new(count as u64);
        for index in (1..count).rev() {
            entries.swap(index, random.below(index + 1));
        }
    }
    let patch = Patch {
        free: Vec::new(),
        entries,
    };
    let order = if shuffled { "at random" } else { "in order" };
    let name = match count {
        1 => "one rebuild".to_string(),
        _ => format!("{count} rebuilds, {order}"),
    };
    Shape {
        name,
        draft: growth::job(growth::target(131, 131), 130, 130, patch),
    }
}

/// Of a row's patches the one whose count of entries is nearest.
fn mixed(row: &Row, count: usize) -> Shape {
    let near = |patch: &Patch| patch.entries.len().abs_diff(count);
    let job = row
        .jobs
        .iter()
        .min_by_key(|job| job.patches.iter().map(near).min())
        .expect("a row has jobs");
    let patch = job.patches.iter().min_by_key(|patch| near(patch));
    let patch = patch.expect("a job has patches").clone();
    Shape {
        name: format!(
            "mixed, {} entries on the shipped target",
            patch.entries.len()
        ),
        draft: Draft {
            patches: vec![patch],
            ..job.clone()
        },
    }
}
