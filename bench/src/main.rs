//! Ours and the original on the same jobs, in one process: how long they take.
//! Written for `bench/run`; bench/README.md says what is measured and how.

#![allow(dead_code)] // of compare's modules, which are taken as they are

#[path = "../../compare/src/draft.rs"]
mod draft;
#[path = "../../compare/src/number.rs"]
mod number;
#[path = "../../compare/src/patch.rs"]
mod patch;
#[path = "../../compare/src/random.rs"]
mod random;
#[path = "../../compare/src/target.rs"]
mod target;
#[path = "../../compare/src/values.rs"]
mod values;

mod counts;
mod examining;
mod generate;
mod groups;
mod growth;
mod jobs;
mod ours;
mod pairs;
mod shapes;
mod stack;
mod theirs;
mod time;
mod times;
mod tries;
mod writing;

fn main() {
    let words: Vec<String> = std::env::args().skip(1).collect();
    let words: Vec<&str> = words.iter().map(String::as_str).collect();
    match words[..] {
        ["times"] => times::print(),
        ["writing"] => writing::print(),
        ["growth"] => growth::print(),
        ["shapes"] => {
            shapes::print();
            println!();
            groups::print();
        }
        ["groups"] => groups::print(),
        ["stack"] => stack::print(),
        ["tries"] => tries::print(),
        ["examining"] => examining::print(),
        ["count"] => counts::count(),
        ["counts", folder] => counts::print(folder),
        _ => {
            eprintln!(
                "usage: bench times | writing | growth | shapes | groups | stack | tries | examining | count | counts FOLDER"
            );
            std::process::exit(2);
        }
    }
}
