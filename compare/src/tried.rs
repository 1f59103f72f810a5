//! Holds `parallel_moves_try` of our static library against the drawing and counting in
//! plain Rust (`tries.rs`): the same seeds, jobs and prices, in one process.

use std::error::Error;
use std::fs;
use std::process::ExitCode;

use judge::number::Refused;
use judge::reading::beginning;
use judge::tries::{Asked, Counts, tried};

const HELP: &str = "\
tried SEEDS JOB..
    Compares, for each job file, so many seeds and a few arguments that are refused; the
    function alone, and the job cut off, changed behind its function, and too long.
    Prints counts and `no difference`, or the first difference, and ends with 1.
";

/// A table: accepted, M, R, S, L, evictions, price, and the refusals by number.
type Table = [u64; 263];

#[link(name = "trying_c", kind = "static")]
unsafe extern "C" {
    #[link_name = "parallel_moves_try_5"]
    fn parallel_moves_try(
        job: *const u8,
        job_len: usize,
        prices: *const u32,
        seed: u32,
        patches: u32,
        one: *mut u64,
        two: *mut u64,
        target: *mut u16,
        function: *mut u16,
        cache: *mut u16,
        entries: *mut u16,
        writers: *mut u16,
        available: *mut u8,
        sources: *mut u8,
        edits: *mut u64,
        slots: *mut u16,
        diverted: *mut u16,
        marks: *mut u8,
        carried: *mut u16,
    ) -> u8;
}

/// Ours, with memory that is used again from call to call.
struct Ours {
    target: Vec<u16>,
    function: Vec<u16>,
    cache: Vec<u16>,
    entries: Vec<u16>,
    writers: Vec<u16>,
    available: Vec<u8>,
    sources: Vec<u8>,
    edits: Vec<u64>,
    slots: Vec<u16>,
    diverted: Vec<u16>,
    marks: Vec<u8>,
    carried: Vec<u16>,
}

/// What a table holds before a call.
const BEFORE: u64 = 0x5a5a_5a5a_5a5a_5a5a;

impl Ours {
    fn new() -> Self {
        let shorts = |length| vec![0xa5a5; length];
        Ours {
            target: shorts(107_520),
            function: shorts(16_388),
            cache: shorts(65_600),
            entries: shorts(1541),
            writers: shorts(6657),
            available: vec![1; 512],
            sources: vec![1; 512],
            edits: vec![u64::MAX / 3; 1025],
            slots: shorts(32_835),
            diverted: shorts(12_288),
            marks: vec![0xa5; 129],
            carried: shorts(2049),
        }
    }

    /// The number, and both tables.
    fn tried(&mut self, prices: [u32; 4], seed: u32, patches: u32, job: &[u8]) -> (u8, [Table; 2]) {
        let mut tables = [[BEFORE; 263]; 2];
        let [one, two] = &mut tables;
        // SAFETY: each array is as long as the function says, the flags are 0 or 1, and
        // none lies on another.
        let number = unsafe {
            parallel_moves_try(
                job.as_ptr(),
                job.len(),
                prices.as_ptr(),
                seed,
                patches,
                one.as_mut_ptr(),
                two.as_mut_ptr(),
                self.target.as_mut_ptr(),
                self.function.as_mut_ptr(),
                self.cache.as_mut_ptr(),
                self.entries.as_mut_ptr(),
                self.writers.as_mut_ptr(),
                self.available.as_mut_ptr(),
                self.sources.as_mut_ptr(),
                self.edits.as_mut_ptr(),
                self.slots.as_mut_ptr(),
                self.diverted.as_mut_ptr(),
                self.marks.as_mut_ptr(),
                self.carried.as_mut_ptr(),
            )
        };
        (number, tables)
    }
}

/// The table that counts come to.
fn table(counts: &Counts) -> Table {
    let mut table = [0; 263];
    table[0] = counts.accepted;
    table[1..5].copy_from_slice(&counts.edits);
    table[5] = counts.evictions;
    table[6] = counts.price;
    table[7..].copy_from_slice(&counts.refusals);
    table
}

/// What the judge says: the number and both tables.
fn judged(prices: [u32; 4], seed: u32, patches: u32, job: &[u8]) -> (u8, [Table; 2]) {
    let asked = Asked {
        seed: seed.into(),
        patches: patches.into(),
        prices: prices.map(u64::from),
    };
    match tried(asked, job) {
        Ok(tried) => (0, [table(&tried.counts[0]), table(&tried.counts[1])]),
        Err(Refused(number)) => (number, [[BEFORE; 263]; 2]),
    }
}

fn main() -> ExitCode {
    let arguments: Vec<String> = std::env::args().skip(1).collect();
    let [seeds, jobs @ ..] = &arguments[..] else {
        eprint!("{HELP}");
        return ExitCode::from(2);
    };
    match compare(seeds, jobs) {
        Ok(code) => code,
        Err(error) => {
            eprintln!("tried: {error}");
            ExitCode::FAILURE
        }
    }
}

fn compare(seeds: &str, jobs: &[String]) -> Result<ExitCode, Box<dyn Error>> {
    let seeds: u32 = seeds.parse().map_err(|_| "SEEDS is not a number")?;
    let mut ours = Ours::new();
    let (mut calls, mut refused, mut accepted, mut drawn, mut differ) = (0, 0, 0, 0, 0);
    for file in jobs {
        let job = fs::read(file)?;
        let prices = [4, 6, 16, 12];
        let whole = || job.clone();
        let mut given: Vec<([u32; 4], u32, u32, Vec<u8>)> = Vec::new();
        for index in 0..seeds {
            // The first seeds, and others from all over.
            let seed = if index % 2 == 0 {
                index / 2
            } else {
                index.wrapping_mul(0x9e37_79b1)
            };
            let prices =
                [prices, [1, 10, 100, 1000], [65_535; 4], [0, 0, 0, 1]][index as usize % 4];
            given.push((prices, seed, 1 + index * 37 % 300, whole()));
        }
        given.push((prices, 7, 1024, whole()));
        // The function alone.
        let function = beginning(&job).ok_or("a job has no function")?;
        given.push((prices, 7, 1024, function.to_vec()));
        // What is refused, and in which order.
        for patches in [0, 1025, u32::MAX] {
            given.push(([65_536, 0, 0, 0], 7, patches, Vec::new()));
        }
        for place in 0..4 {
            let mut prices = prices;
            prices[place] = 65_536;
            given.push((prices, 7, 1, whole()));
        }
        for length in 0..job.len() {
            given.push((prices, 7, 1, job[..length].to_vec()));
            given.push(([65_536; 4], 7, 1, job[..length].to_vec()));
        }
        // Jobs that reading refuses behind the function, and some that it takes.
        for at in function.len()..job.len() {
            for to in [0, 1, 2, 3, 9, 127, 128] {
                let mut changed = job.clone();
                changed[at] = to;
                given.push((prices, 7, 1, changed));
            }
        }
        given.push((prices, 7, 1, [&job[..], &[0]].concat()));
        for length in [65_536, 65_537] {
            let mut long = job.clone();
            long.resize(length, 0);
            given.push((prices, 7, 1, long));
        }
        for (prices, seed, patches, job) in given {
            let wanted = judged(prices, seed, patches, &job);
            let got = ours.tried(prices, seed, patches, &job);
            calls += 1;
            refused += u64::from(wanted.0 != 0);
            if wanted.0 == 0 {
                differ += u64::from(wanted.1[0] != wanted.1[1]);
                for table in &wanted.1 {
                    accepted += table[0];
                    drawn += table[0] + table[7..].iter().sum::<u64>();
                }
            }
            if wanted != got {
                println!("DIFFERENCE");
                println!("{file} as {job:?}, prices {prices:?} seed {seed} patches {patches}");
                println!("of the judge {} {:?}", wanted.0, wanted.1);
                println!("of ours {} {:?}", got.0, got.1);
                return Ok(ExitCode::FAILURE);
            }
        }
    }
    println!(
        "jobs {}, calls {calls}, {refused} of them refused",
        jobs.len()
    );
    println!(
        "patches drawn {drawn}, accepted {accepted}; {differ} calls in which the settings differ"
    );
    println!("no difference");
    Ok(ExitCode::SUCCESS)
}
