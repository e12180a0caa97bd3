//! Runs generated sheets through this crate and through another program and tells every difference.

use std::io;
use std::path::Path;
use std::process::ExitCode;
use std::sync::atomic::{AtomicUsize, Ordering};
use std::thread;
use std::{env, fs};

use plain::making::sheets::{sheet, KINDS};
use plain::programs::answer;
use plain::sheet::run;
use plain::tally::Tally;

/// What one thread has found.
struct Found {
    tallies: [Tally; KINDS.len()],
    differences: Vec<String>,
}

fn main() -> ExitCode {
    let arguments: Vec<String> = env::args().skip(1).collect();
    let [program, count, seed] = &arguments[..] else {
        return usage();
    };
    let (Ok(count), Ok(seed)) = (count.parse(), seed.parse()) else {
        return usage();
    };
    match compare(Path::new(program), count, seed) {
        Ok(0) => ExitCode::SUCCESS,
        Ok(_) => ExitCode::FAILURE,
        Err(error) => {
            eprintln!("compare: {error}");
            ExitCode::from(2)
        }
    }
}

fn usage() -> ExitCode {
    eprintln!("usage: compare PROGRAM COUNT SEED");
    ExitCode::from(2)
}

/// Prints the counts and the differences and answers how many sheets differ.
fn compare(program: &Path, count: usize, seed: u64) -> io::Result<usize> {
    let threads = thread::available_parallelism().map_or(1, |cores| cores.get());
    let next = AtomicUsize::new(0);
    let found: io::Result<Vec<Found>> = thread::scope(|scope| {
        let workers: Vec<_> = (0..threads)
            .map(|_| scope.spawn(|| work(program, &next, count, seed)))
            .collect();
        workers
            .into_iter()
            .map(|worker| worker.join().expect("no worker fails"))
            .collect()
    });
    let mut differ = 0;
    let mut tallies: [Tally; KINDS.len()] = Default::default();
    for part in found? {
        for difference in &part.differences {
            println!("{difference}");
        }
        differ += part.differences.len();
        for (tally, other) in tallies.iter_mut().zip(part.tallies) {
            tally.merge(other);
        }
    }
    report(tallies);
    println!("{count} sheets, {differ} differ");
    Ok(differ)
}

fn report(tallies: [Tally; KINDS.len()]) {
    let mut all = Tally::default();
    for (kind, tally) in KINDS.iter().zip(tallies) {
        let (answered, refused) = (tally.answered_lines(), tally.refused_lines());
        println!("{kind}: {answered} lines answered, {refused} refused");
        all.merge(tally);
    }
    print!("{}", all.text());
}

/// Takes one sheet after the other until all are taken.
fn work(program: &Path, next: &AtomicUsize, count: usize, seed: u64) -> io::Result<Found> {
    let mut found = Found {
        tallies: Default::default(),
        differences: Vec::new(),
    };
    loop {
        let place = next.fetch_add(1, Ordering::Relaxed);
        if place >= count {
            return Ok(found);
        }
        let sheet = sheet(seed, place);
        let expected = run(&sheet);
        let output = answer(program, &sheet)?;
        if output.stdout != expected.as_bytes() || output.status.code() != Some(0) {
            let file = env::temp_dir().join(format!("compare-{seed}-{place}.sheet"));
            fs::write(&file, &sheet)?;
            let kind = KINDS[place % KINDS.len()];
            found.differences.push(format!(
                "{} ({kind}): {}",
                file.display(),
                told(&expected, &output)
            ));
        }
        found.tallies[place % KINDS.len()].count(&expected);
    }
}

/// The first line that differs, or how the program ended.
fn told(expected: &str, output: &std::process::Output) -> String {
    let printed = String::from_utf8_lossy(&output.stdout);
    let pairs = expected.lines().zip(printed.lines());
    match pairs.clone().find(|(ours, theirs)| ours != theirs) {
        Some((ours, theirs)) => format!("here `{ours}`, there `{theirs}`"),
        None if printed != expected => format!(
            "{} lines here, {} there",
            expected.lines().count(),
            printed.lines().count()
        ),
        None => format!("ended with {}", output.status),
    }
}
