//! Runs the program on frame files by chance, and compares what it prints with what the rules in plain Rust give:
//! try-files PROGRAM COUNT [SEED]. A file on which both differ, or on which the program fails or hangs, is written out.

mod files;
#[allow(dead_code)]
mod plain;

use std::collections::BTreeMap;
use std::io::{Read, Write};
use std::process::{Command, ExitCode, Stdio};
use std::thread;
use std::time::{Duration, Instant};

const LONGEST: Duration = Duration::from_secs(10);

// What the program prints for a file, if it ends in time and with status 0.
fn run(program: &str, file: &[u8]) -> Option<Vec<u8>> {
    let mut child = Command::new(program).stdin(Stdio::piped()).stdout(Stdio::piped()).spawn().ok()?;
    // The program may stop reading a file that is too long.
    let _ = child.stdin.take()?.write_all(file);
    let mut output = child.stdout.take()?;
    let reader = thread::spawn(move || {
        let mut printed = Vec::new();
        output.read_to_end(&mut printed).map(|_| printed)
    });
    let begun = Instant::now();
    while !reader.is_finished() && begun.elapsed() < LONGEST {
        thread::sleep(Duration::from_micros(50));
    }
    if !reader.is_finished() {
        let _ = child.kill();
    }
    let status = child.wait().ok()?;
    let printed = reader.join().ok()?.ok()?;
    status.success().then_some(printed)
}

// The kind of an answer: a sample, or the number of a fault.
fn kind(answer: &str) -> String {
    answer.strip_prefix("fault,").and_then(|rest| rest.split(',').next()).map_or("sample".into(), |n| format!("fault {n}"))
}

fn main() -> ExitCode {
    let arguments: Vec<String> = std::env::args().collect();
    let [_, program, count, seed @ ..] = arguments.as_slice() else {
        eprintln!("try-files PROGRAM COUNT [SEED]");
        return ExitCode::FAILURE;
    };
    let seed = seed.first().map_or("1", String::as_str);
    let (Ok(count), Ok(seed)) = (count.parse::<u64>(), seed.parse::<u64>()) else {
        eprintln!("try-files: COUNT and SEED are whole numbers");
        return ExitCode::FAILURE;
    };
    let mut chance = files::Chance::new(seed);
    let mut kinds = BTreeMap::new();
    let mut differ = 0;
    for i in 0..count {
        let file = files::any(&mut chance);
        let wanted = plain::respond::respond(&file);
        *kinds.entry(kind(&wanted)).or_insert(0) += 1;
        if run(program, &file).as_deref() != Some(wanted.as_bytes()) {
            differ += 1;
            let name = format!("differs-{seed}-{i}.frame");
            let _ = std::fs::write(&name, &file);
            println!("{name}: wanted {wanted}");
        }
    }
    for (kind, times) in kinds {
        println!("{times:>8}  {kind}");
    }
    println!("{} of {count} agree", count - differ);
    if differ == 0 { ExitCode::SUCCESS } else { ExitCode::FAILURE }
}
