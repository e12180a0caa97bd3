//! Measures two programs on large sheets: the least of many wall times, and instructions where valgrind is there.

use std::fs::{self, File};
use std::io;
use std::path::{Path, PathBuf};
use std::process::{Command, ExitCode, Stdio};
use std::time::{Duration, Instant};

const RUNS: usize = 20;

fn main() -> ExitCode {
    let arguments: Vec<PathBuf> = std::env::args_os().skip(1).map(PathBuf::from).collect();
    let [program, plain, directory] = &arguments[..] else {
        eprintln!("usage: speed PROGRAM PLAIN DIR");
        return ExitCode::from(2);
    };
    match measure(program, plain, directory) {
        Ok(()) => ExitCode::SUCCESS,
        Err(error) => {
            eprintln!("speed: {error}");
            ExitCode::FAILURE
        }
    }
}

/// Prints a line for each sheet: bytes, what PROGRAM and PLAIN took, and the ratio.
fn measure(program: &Path, plain: &Path, directory: &Path) -> io::Result<()> {
    fs::create_dir_all(directory)?;
    let with_valgrind = Command::new("valgrind").arg("--version").output().is_ok();
    for (name, sheet) in plain::making::loads::all() {
        let file = directory.join(format!("{name}.sheet"));
        fs::write(&file, &sheet)?;
        if printed(program, &file)? != printed(plain, &file)? {
            return Err(io::Error::other(format!(
                "the programs print different texts for {}",
                file.display()
            )));
        }
        let [one, other] = least_times([program, plain], &file)?;
        let ratio = one.as_secs_f64() / other.as_secs_f64();
        println!(
            "{name} ({} bytes): {one:.2?}, plain {other:.2?}, ratio {ratio:.2}",
            sheet.len()
        );
        if with_valgrind {
            let (one, other) = (instructions(program, &file)?, instructions(plain, &file)?);
            let ratio = one as f64 / other as f64;
            println!("{name}: {one} instructions, plain {other}, ratio {ratio:.2}");
        }
    }
    Ok(())
}

fn started(command: &mut Command, sheet: &Path) -> io::Result<()> {
    let status = command
        .stdin(File::open(sheet)?)
        .stdout(Stdio::null())
        .status()?;
    if status.success() {
        Ok(())
    } else {
        Err(io::Error::other(format!("{command:?} ended with {status}")))
    }
}

fn printed(program: &Path, sheet: &Path) -> io::Result<Vec<u8>> {
    Ok(Command::new(program)
        .stdin(File::open(sheet)?)
        .stderr(Stdio::inherit())
        .output()?
        .stdout)
}

/// The least time of each program; they run in turn, so that both meet the same machine.
fn least_times(programs: [&Path; 2], sheet: &Path) -> io::Result<[Duration; 2]> {
    let mut least = [Duration::MAX; 2];
    for _ in 0..RUNS {
        for (program, time) in programs.iter().zip(&mut least) {
            let start = Instant::now();
            started(&mut Command::new(program), sheet)?;
            *time = start.elapsed().min(*time);
        }
    }
    Ok(least)
}

/// The instructions that callgrind collected.
fn instructions(program: &Path, sheet: &Path) -> io::Result<u64> {
    let mut command = Command::new("valgrind");
    command
        .args(["--tool=callgrind", "--callgrind-out-file=/dev/null"])
        .arg(program);
    let output = command.stdin(File::open(sheet)?).output()?;
    let text = String::from_utf8_lossy(&output.stderr);
    let collected = text.lines().find_map(|line| line.split_once("Collected :"));
    let count = collected.and_then(|(_, count)| count.trim().parse().ok());
    count.ok_or_else(|| {
        io::Error::other(format!(
            "no count of instructions for {}",
            program.display()
        ))
    })
}
