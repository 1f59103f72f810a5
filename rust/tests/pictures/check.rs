//! The cells of a page, held against the machine at every stop.

use std::collections::BTreeSet;

use parallel_moves::Edit;

use crate::common::machine::Place;
use crate::job::Job;
use crate::meant::{Meant, OF_NONE};

/// A cell of a picture.
#[derive(Debug)]
pub struct Cell {
    classes: BTreeSet<String>,
    place: String,
    stop: usize,
    holds: String,
    waits: bool,
}

/// What stands between two texts.
fn between<'a>(text: &'a str, start: &str, end: &str) -> &'a str {
    let (_, rest) = text.split_once(start).unwrap();
    rest.split_once(end).unwrap().0
}

/// The cells of a page.
pub fn cells(page: &str) -> Vec<Cell> {
    let cells = page.split("<g class=\"cell ").skip(1).map(|cell| {
        let (cell, _) = cell.split_once("</g>").unwrap();
        let (classes, _) = cell.split_once('"').unwrap();
        Cell {
            classes: classes.split(' ').map(str::to_owned).collect(),
            place: between(cell, "data-place=\"", "\"").to_owned(),
            stop: between(cell, "data-stop=\"", "\"").parse().unwrap(),
            holds: between(between(cell, "<text", "/text>"), ">", "<").to_owned(),
            waits: cell.contains("class=\"waits\""),
        }
    });
    cells.collect()
}

/// The place that an edit writes, and the one that it reads.
fn ends(edit: Edit) -> (Place, Option<Place>) {
    match edit {
        Edit::Move { to, from, .. } => (to.into(), Some(from.into())),
        Edit::Rematerialize { to, .. } => (to.into(), None),
        Edit::EmergencySpill { to, from } => (to.into(), Some(from.into())),
        Edit::EmergencyReload { to, from } => (to.into(), Some(from.into())),
    }
}

/// A place by its name, if it is no unit.
fn named(name: &str) -> Option<Place> {
    let number = name[1..].parse().unwrap();
    match &name[..1] {
        "r" => Some(Place::Register(number)),
        "s" => Some(Place::Slot(number)),
        _ => None,
    }
}

/// Holds a page against the edits that it shows: how many cells it has.
pub fn check(page: &str, job: &Job, number: usize, edits: &[Edit]) -> usize {
    let meant = Meant::of(job, &job.patches[number - 1]);
    let mut stops = vec![meant.start()];
    // The registers that are saved at a stop, with their slots.
    let mut saved = vec![Vec::<(Place, Place)>::new()];
    for &edit in edits {
        let mut machine = stops.last().unwrap().clone();
        machine.step(edit, &|value| meant.content(u32::from(value)));
        stops.push(machine);
        let mut now = saved.last().unwrap().clone();
        match edit {
            Edit::EmergencySpill { to, from } => now.push((from.into(), to.into())),
            Edit::EmergencyReload { to, .. } => now.retain(|&(of, _)| of != to.into()),
            _ => {}
        }
        saved.push(now);
    }
    let first_written = |place| {
        let mut writes = edits.iter().map(|&edit| ends(edit).0);
        writes.position(|to| job.overlap(to, place))
    };
    let last_read = |place| {
        let mut reads = edits.iter().map(|&edit| ends(edit).1);
        reads.rposition(|from| from.is_some_and(|from| job.overlap(from, place)))
    };
    let mut shown = BTreeSet::new();
    let cells = cells(page);
    for cell in &cells {
        let (name, stop) = (&cell.place, cell.stop);
        let machine = &stops[stop];
        let held = match named(name) {
            Some(place) => machine.read(place),
            None => vec![machine.units[name[1..].parse::<usize>().unwrap()]],
        };
        shown.insert((name.clone(), stop));
        let said = meant.said(&cell.holds);
        let same = |(held, said): (&u32, &Option<u32>)| match said {
            Some(said) => held == said,
            None => *held >= OF_NONE,
        };
        let right = match &cell.holds[..] {
            "-" => held.iter().all(|word| *word >= OF_NONE),
            _ => held.len() == said.len() && held.iter().zip(&said).all(same),
        };
        assert!(right, "{cell:?}: {held:?}");
        let Some(place) = named(name) else {
            continue;
        };
        let has = |class: &str| cell.classes.contains(class);
        let last = stop.checked_sub(1).map(|index| ends(edits[index]).0);
        let written = last.is_some_and(|to| job.overlap(to, place));
        assert_eq!(has("written"), written, "{cell:?}");
        let now = &saved[stop];
        assert_eq!(has("saved"), now.iter().any(|&(_, to)| to == place));
        let waits = now.iter().any(|&(of, _)| job.overlap(of, place));
        assert_eq!(cell.waits, waits, "{cell:?}");
        let touched = first_written(place).is_some_and(|index| index < stop);
        let mut dests = meant.dests();
        let arrived = dests.any(|(to, value)| to == place && held == meant.content(value));
        if !has("saved") {
            assert_eq!(has("arrived"), touched && arrived, "{cell:?}");
        }
        // A value is on its way where it was put, and is read again.
        let is_value = meant.dests().any(|(_, value)| held == meant.content(value));
        if has("scratch") {
            assert!(touched && is_value, "{cell:?}");
            assert!(
                last_read(place).is_some_and(|index| index >= stop),
                "{cell:?}"
            );
        }
    }
    // Each place of an entry or an edit is shown at every stop, and each other unit and
    // slot is, or is said to be untouched.
    let entries = job.patches[number - 1].entries.iter();
    let of_entries = entries.flat_map(|&(from, to, _)| [from, Some(to)]);
    let of_edits = edits
        .iter()
        .flat_map(|&edit| [Some(ends(edit).0), ends(edit).1]);
    for place in of_entries.chain(of_edits).flatten() {
        for stop in 0..=edits.len() {
            assert!(shown.contains(&(place.to_string(), stop)), "{place} {stop}");
        }
    }
    let quiet = match page.contains("untouched: <code>") {
        true => between(page, "untouched: <code>", "</code>"),
        false => "",
    };
    for place in quiet.split_whitespace().filter_map(named) {
        assert!(edits.iter().all(|&edit| !job.overlap(ends(edit).0, place)));
        assert!(!shown.contains(&(place.to_string(), 0)));
    }
    let rows = shown
        .iter()
        .filter(|(_, stop)| *stop == 0)
        .map(|(name, _)| name.as_str());
    let all: BTreeSet<&str> = rows.chain(quiet.split_whitespace()).collect();
    let units: BTreeSet<usize> = all
        .iter()
        .flat_map(|name| match named(name) {
            Some(place) => job.units(place).to_vec(),
            None => vec![name[1..].parse().unwrap()],
        })
        .collect();
    let of_registers = job.registers.iter().flat_map(|register| &register.units);
    assert!(of_registers.copied().all(|unit| units.contains(&unit)));
    assert!((0..job.slots).all(|slot| all.contains(&format!("s{slot}")[..])));
    // In the end each destination has its value, and it is said to be wanted there.
    for (to, value) in meant.dests() {
        assert_eq!(stops[edits.len()].read(to), meant.content(value));
        let wanted = format!("<text class=\"wanted middle\" data-place=\"{to}\"");
        let label = between(between(page, &wanted, "/text>"), ">", "<");
        let said: Option<Vec<u32>> = meant.said(label).into_iter().collect();
        assert_eq!(said, Some(meant.content(value)));
    }
    cells.len()
}
