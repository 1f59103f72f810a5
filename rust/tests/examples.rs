//! The jobs of `examples` have their text beside them, and it is that of the job.

mod common;

use std::fs;

use common::{jobs, root};
use parallel_moves::text;

#[test]
fn each_job_has_its_text() {
    let folder = root().join("examples");
    let all = jobs("examples");
    for (name, job) in &all {
        let path = folder.join(name).with_extension("txt");
        let kept = fs::read_to_string(&path).unwrap_or_else(|_| panic!("no {}", path.display()));
        assert_eq!(text::from_bytes(job).unwrap(), kept, "{name}");
        assert_eq!(text::to_bytes(&kept).unwrap(), *job, "{name}");
    }
    // And each text its job.
    let files = fs::read_dir(&folder)
        .unwrap()
        .map(|file| file.unwrap().path());
    let texts = files.filter(|file| file.extension().is_some_and(|ending| ending == "txt"));
    assert_eq!(texts.count(), all.len());
}
