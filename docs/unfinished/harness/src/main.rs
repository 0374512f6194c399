//! Compares the boundary with the independent engine: documents, tests that are not random, and random jobs.
use harness::compare::{self, Difference};
use harness::coverage::Coverage;
use harness::entries::BoardMake;
use harness::random::Random;
use harness::{boundary, documents, generate, misuses, shrink};
use std::process::ExitCode;
use std::sync::atomic::{AtomicBool, AtomicU64, Ordering};
use std::thread;
use std::time::{Duration, Instant};

struct Wanted {
    entries: u64,
    seed: u64,
    threads: u64,
    job: Option<u64>,
    coverage: Option<u64>,
}

fn wanted() -> Result<Wanted, String> {
    let mut wanted = Wanted { entries: 1_000_000, seed: 1, threads: 2, job: None, coverage: None };
    let mut words = std::env::args().skip(1);
    while let Some(word) = words.next() {
        let figure = words.next().and_then(|figure| figure.parse::<u64>().ok());
        let figure = figure.ok_or(format!("{word} wants a figure"))?;
        match word.as_str() {
            "--entries" => wanted.entries = figure,
            "--seed" => wanted.seed = figure,
            "--threads" => wanted.threads = figure.max(1),
            "--job" => wanted.job = Some(figure),
            "--coverage" => wanted.coverage = Some(figure),
            _ => return Err(format!("unknown word {word}")),
        }
    }
    Ok(wanted)
}

/// The random numbers of a job: they depend on the seed and the job's number alone.
fn random_of(seed: u64, number: u64) -> Random {
    let mut first = Random::new(seed);
    let mixed = first.next() ^ number.wrapping_mul(0xD6E8_FEB8_6659_FD93);
    Random::new(mixed)
}

fn report(number: u64, seed: u64, difference: &Difference) {
    let job = generate::job(&mut random_of(seed, number));
    println!("job {number} of seed {seed}: {difference}");
    println!("made smaller:");
    let small = shrink::shrink(job);
    print!("{small}");
    if let Err(difference) = compare::check(&small.bytes()) {
        println!("# {difference}");
    }
    println!("# the bytes of the job: {:02X?}", small.bytes());
}

/// Counts of all threads.
#[derive(Default)]
struct Counts {
    next: AtomicU64,
    jobs: AtomicU64,
    entries: AtomicU64,
    refused: AtomicU64,
    days: AtomicU64,
    bytes: AtomicU64,
    failed: AtomicBool,
}

fn work(wanted: &Wanted, counts: &Counts) {
    while counts.entries.load(Ordering::Relaxed) < wanted.entries && !counts.failed.load(Ordering::Relaxed) {
        let number = counts.next.fetch_add(1, Ordering::Relaxed);
        let job = generate::job(&mut random_of(wanted.seed, number));
        let bytes = job.bytes();
        let lengths = if number % 16 == 0 { compare::check_lengths(&bytes) } else { Ok(()) };
        match compare::check(&bytes).and_then(|result| lengths.map(|()| result)) {
            Ok(result) if result < 0 => {
                counts.refused.fetch_add(1, Ordering::Relaxed);
            }
            Ok(result) => {
                counts.entries.fetch_add(job.entry_count() as u64, Ordering::Relaxed);
                counts.days.fetch_add(job.days.len() as u64, Ordering::Relaxed);
                counts.bytes.fetch_add(result as u64, Ordering::Relaxed);
            }
            Err(difference) => {
                if !counts.failed.swap(true, Ordering::Relaxed) {
                    report(number, wanted.seed, &difference);
                }
            }
        }
        counts.jobs.fetch_add(1, Ordering::Relaxed);
    }
}

fn progress(wanted: &Wanted, counts: &Counts, start: Instant) {
    let mut next = Duration::from_secs(5);
    while counts.entries.load(Ordering::Relaxed) < wanted.entries && !counts.failed.load(Ordering::Relaxed) {
        thread::sleep(Duration::from_millis(100));
        if start.elapsed() >= next {
            next += Duration::from_secs(5);
            let entries = counts.entries.load(Ordering::Relaxed);
            println!("{entries} of {} entries, {} s", wanted.entries, start.elapsed().as_secs());
        }
    }
}

fn random_jobs(wanted: &Wanted) -> bool {
    let counts = Counts::default();
    let start = Instant::now();
    thread::scope(|scope| {
        for _ in 0..wanted.threads {
            scope.spawn(|| work(wanted, &counts));
        }
        progress(wanted, &counts, start);
    });
    let failed = counts.failed.load(Ordering::Relaxed);
    println!(
        "seed {}: {} entries in {} days of {} jobs, and {} jobs with a negative result; {} output bytes compared, {:.1} s: {}",
        wanted.seed,
        counts.entries.load(Ordering::Relaxed),
        counts.days.load(Ordering::Relaxed),
        counts.jobs.load(Ordering::Relaxed) - counts.refused.load(Ordering::Relaxed),
        counts.refused.load(Ordering::Relaxed),
        counts.bytes.load(Ordering::Relaxed),
        start.elapsed().as_secs_f64(),
        if failed { "DIFFERENT" } else { "all alike" }
    );
    !failed
}

type Test = (&'static str, fn() -> Result<usize, String>);

const TESTS: [Test; 8] = [
    ("lines of docs/EXAMPLES.md by the reference engine", || {
        documents::check(include_str!("../../../EXAMPLES.md"))
    }),
    ("damaged feeds", misuses::damaged_feeds),
    ("damaged jobs", || misuses::damaged_jobs(&mut Random::new(7))),
    ("misuses", misuses::misuses),
    ("entries on a ladder with a full level", || {
        misuses::full_level(BoardMake::Ladder { count: 16 })
    }),
    ("entries on a grid with a full level", || {
        misuses::full_level(BoardMake::Grid { start: 900 })
    }),
    ("entries on a ladder with full sides", misuses::full_sides),
    ("version", || match boundary::version() {
        1 => Ok(1),
        other => Err(format!("the version is {other}")),
    }),
];

fn fixed_tests() -> bool {
    let mut good = true;
    for (name, test) in TESTS {
        let start = Instant::now();
        match test() {
            Ok(count) => println!("{count} {name}: alike, {:.1} s", start.elapsed().as_secs_f64()),
            Err(failure) => {
                println!("{name}: DIFFERENT: {failure}");
                good = false;
            }
        }
    }
    good
}

fn one_job(seed: u64, number: u64) -> bool {
    print!("{}", generate::job(&mut random_of(seed, number)));
    match compare::check(&generate::job(&mut random_of(seed, number)).bytes()) {
        Ok(result) => {
            println!("# alike: {result}");
            true
        }
        Err(difference) => {
            report(number, seed, &difference);
            false
        }
    }
}

/// Tells how often the first jobs of a seed come to each edge.
fn tell_coverage(seed: u64, entries: u64) -> bool {
    let mut coverage = Coverage::default();
    let mut number = 0;
    while coverage.entries < entries {
        coverage.add_job(&generate::job(&mut random_of(seed, number)));
        number += 1;
    }
    print!("{coverage}");
    true
}

fn main() -> ExitCode {
    let wanted = match wanted() {
        Ok(wanted) => wanted,
        Err(problem) => {
            eprintln!("{problem}; usage: [--entries N] [--seed S] [--threads T] [--job NUMBER] [--coverage N]");
            return ExitCode::from(2);
        }
    };
    let good = match (wanted.job, wanted.coverage) {
        (Some(number), _) => one_job(wanted.seed, number),
        (None, Some(entries)) => tell_coverage(wanted.seed, entries),
        (None, None) => fixed_tests() & random_jobs(&wanted),
    };
    if good { ExitCode::SUCCESS } else { ExitCode::FAILURE }
}
