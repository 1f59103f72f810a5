//! `resolve --check` and `groups --check`: with a library that is right they print what they print
//! without it, and end as they do.

use crate::run;

/// What a command prints and says, and its status.
fn outcome(words: &str) -> (String, String, Option<i32>) {
    let output = run(words);
    let text = |bytes: &[u8]| String::from_utf8_lossy(bytes).into_owned();
    (
        text(&output.stdout),
        text(&output.stderr),
        output.status.code(),
    )
}

#[test]
fn checked_as_unchecked() {
    for command in ["resolve", "resolve --kept 2", "groups"] {
        let plain = outcome(&format!("{command} compare/trials"));
        assert!(plain.0.lines().count() > 1000, "{command}");
        assert_eq!(
            outcome(&format!("{command} --check compare/trials")),
            plain,
            "{command}"
        );
    }
}

#[test]
fn the_option() {
    let (_, said, status) = outcome("resolve --check=yes examples/swap-full.job");
    assert_eq!(status, Some(2));
    assert!(said.contains("--check is given nothing"), "{said}");
    let (help, _, _) = outcome("help resolve");
    assert!(help.contains("--check"), "{help}");
}
