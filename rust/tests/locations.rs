//! Where a job is refused: the byte and the part, by a second reading.

mod common;

use common::{jobs, kept_evictions};
use parallel_moves::{JobBuilder, Location, Part, Refusal, Resolver};

fn job_of(name: &str) -> Vec<u8> {
    let mut all = jobs("compare/trials").into_iter();
    all.find(|(of, _)| of == name).unwrap().1
}

/// Where a job is refused, if it is, and why.
fn locate(resolver: &mut Resolver, kept: u32, job: &[u8]) -> Option<(Refusal, Option<Location>)> {
    let refusal = resolver.answer(kept, job).err()?.refusal();
    Some((refusal, resolver.locate(kept, job, refusal)))
}

#[test]
fn trials() {
    let mut resolver = Resolver::new();
    for (name, expected) in [
        ("refused-1-empty", "byte 0: the number of units"),
        ("refused-1-cut-off", "byte 0: the number of units"),
        ("refused-2-no-units", "byte 0: the number of units"),
        ("refused-2-slot-n", "byte 50: patch 1, entry 1"),
        ("refused-3-units", "byte 10: register 0"),
        (
            "refused-3-free-units-equal",
            "byte 49: patch 1, free unit 1",
        ),
        ("refused-4", "byte 10: register 1"),
        ("refused-5-member", "byte 18: class 0"),
        ("refused-6", "byte 10: register 1"),
        ("refused-7-last-is-memory", "byte 25: class 2"),
        ("refused-8", "byte 53: the job"),
        ("refused-9-rebuild-class", "byte 41: value 0"),
        ("refused-10-in-second-patch", "byte 67: patch 2, entry 4"),
        ("refused-11", "byte 49: patch 1, entry 1"),
        ("refused-12", "byte 53: patch 1, entry 2"),
        ("refused-13", "byte 48: patch 1, free unit 1"),
        ("refused-14", "byte 34: patch 1, entry 1"),
        (
            "refused-15-before-its-bytes",
            "byte 561: patch 1, entry 129",
        ),
        ("refused-17", "byte 55: patch 2"),
    ] {
        let (_, location) = locate(&mut resolver, 1, &job_of(name)).unwrap();
        assert_eq!(location.unwrap().to_string(), expected, "{name}");
    }
    // A job's length, its setting, and a number that it is not refused by.
    let mut long = job_of("swap-full");
    assert_eq!(resolver.locate(1, &long, Refusal::SelfMove), None);
    assert_eq!(resolver.locate(1, &long, Refusal::LeftOver), None);
    assert_eq!(resolver.locate(3, &long, Refusal::NoSuchSetting), None);
    long.resize(65_537, 0);
    let (refusal, location) = locate(&mut resolver, 1, &long).unwrap();
    assert_eq!(refusal, Refusal::NamesNothing);
    let location = location.unwrap();
    assert_eq!((location.byte(), location.part()), (65_536, Part::Job));
}

/// What is changed in a job of one byte a number is where it is refused, or before: the
/// bytes before a location are a job cut off.
#[test]
fn one_byte_changed() {
    let mut resolver = Resolver::new();
    let mut located = 0;
    for name in [
        "swap-full",
        "writer-of-two-units",
        "rebuild-into-slot",
        "words-rebuilt",
    ] {
        let job = job_of(name);
        for at in 0..job.len() {
            for byte in [0, 1, 2, 3, 9, 100, 128, 255] {
                let mut changed = job.clone();
                changed[at] = byte;
                let Some((refusal, location)) = locate(&mut resolver, 1, &changed) else {
                    continue;
                };
                let location = location.unwrap_or_else(|| panic!("{name} {at} {byte}"));
                assert!(location.byte() <= changed.len());
                let before = resolver.answer(1, &changed[..location.byte()]);
                let before = before.map_err(|refused| refused.refusal());
                match refusal {
                    Refusal::LeftOver => assert!(before.is_ok()),
                    _ => assert_eq!(before.unwrap_err(), Refusal::NotANumber),
                }
                located += 1;
            }
        }
    }
    assert!(located > 1000, "{located}");
}

/// The part is that which writing the same job says, where both refuse it so.
#[test]
fn as_the_writer_says() {
    let mut resolver = Resolver::new();
    let mut same = 0;
    for (name, job) in jobs("compare/trials") {
        let Some((refusal, Some(location))) = locate(&mut resolver, kept_evictions(&name), &job)
        else {
            continue;
        };
        let Ok(builder) = JobBuilder::from_bytes(&job) else {
            continue;
        };
        if let Err(error) = builder.bytes()
            && error.refusal() == refusal
        {
            assert_eq!(error.part(), location.part(), "{name}");
            same += 1;
        }
    }
    assert!(same > 20, "{same}");
}
