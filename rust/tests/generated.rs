//! Jobs that `compare` generates, held against the answers of the judge of each setting.

mod common;

use common::{answers, generated, text};
use parallel_moves::Resolver;

/// How many jobs are made in each mode.
const MODES: [(&str, usize); 11] = [
    ("small", 5000),
    ("big", 500),
    ("shared", 2000),
    ("memory", 2000),
    ("remat", 2000),
    ("patches", 500),
    ("evictions", 3000),
    ("refused", 5000),
    ("damaged", 5000),
    ("limits", 500),
    ("fans", 500),
];

#[test]
fn same_as_the_judge() {
    let mut resolver = Resolver::new();
    let mut different = 0;
    for (seed, (mode, count)) in (100..).zip(MODES) {
        let Some(jobs) = generated(seed, count, mode) else {
            return;
        };
        let mut texts = Vec::new();
        for setting in [1, 2] {
            let what = format!("{mode}-{setting}");
            let expected = answers(&what, setting, &jobs).expect("compare is built");
            for (index, (job, expected)) in jobs.iter().zip(&expected).enumerate() {
                let text = text(&mut resolver, setting, job);
                assert_eq!(
                    &text, expected,
                    "job {index} of generate {seed} {count} {mode}, setting {setting}"
                );
            }
            texts.push(expected);
        }
        let pairs = texts[0].iter().zip(&texts[1]);
        different += pairs.filter(|(one, two)| one != two).count();
    }
    assert!(different > 1000, "{different}");
}
