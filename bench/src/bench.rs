//! The proved library beside the same rules in plain Rust, in one run: first both answer the same frame files by chance and have to agree;
//! then each pair of calls is timed, and the ratio of proved to plain is printed.

mod files;
mod plain;
mod proved;

use plain::designs::{Pivotal, Poisson, Systematic};
use plain::layers::{Stratified, TwoStage};
use plain::survey::{Generator, Survey};
use plain::{Design, Row};
use std::hint::black_box;
use std::process::ExitCode;
use std::time::Instant;

const ROUNDS: usize = 15;

// Begins a design so many times; the sum of the ways of its first throws.
fn begin_often(design: &mut impl Design, list: &[Row], n: u32, times: u32) -> u64 {
    let mut sum = 0u64;
    for _ in 0..times {
        if design.begin(black_box(list), n).is_ok() {
            sum += u64::from(design.ways());
        }
    }
    sum
}

// Draws a sample so many times; the sum of the numbers of the units taken, from 1.
fn draw_often(design: &mut impl Design, list: &[Row], n: u32, seed: u32, times: u32) -> u64 {
    let mut source = Generator::new(seed, u32::MAX);
    let mut sum = 0u64;
    for _ in 0..times {
        if design.begin(black_box(list), n).is_err() {
            continue;
        }
        while design.ways() != 0 {
            if let Ok(d) = source.throw(design.ways()) {
                let _ = design.step(d);
            }
        }
        sum += (0..list.len()).filter(|k| design.taken(*k) == Ok(true)).map(|k| k as u64 + 1).sum::<u64>();
    }
    sum
}

// Reports a sample's amounts so many times; the sum of the reports.
fn report_often(list: &[Row], n: u32, seed: u32, amounts: &[i32], times: u32) -> i64 {
    let Ok(mut survey) = Survey::start(Systematic::default(), list, n) else {
        return 0;
    };
    if survey.draw_out(&mut Generator::new(seed, u32::MAX)).is_err() {
        return 0;
    }
    let mut sum = 0;
    for _ in 0..times {
        sum += survey.report(black_box(amounts)).unwrap_or(0);
    }
    sum
}

// The shortest time of one call of each, in nanoseconds; both have to answer the same.
fn time(name: &str, times: u32, proved: impl Fn(u32) -> i64, plain: impl Fn(u32) -> i64) -> bool {
    let mut best = [f64::MAX; 2];
    let mut same = true;
    for _ in 0..ROUNDS {
        let begun = Instant::now();
        let a = black_box(proved(times));
        best[0] = best[0].min(begun.elapsed().as_nanos() as f64 / f64::from(times));
        let begun = Instant::now();
        let b = black_box(plain(times));
        best[1] = best[1].min(begun.elapsed().as_nanos() as f64 / f64::from(times));
        same &= a == b;
    }
    let ratio = best[0] / best[1];
    let differ = if same { "" } else { "  THE ANSWERS DIFFER" };
    println!("| {name} | {:.2} | {:.2} | {ratio:.2} |{differ}", best[0] / 1000.0, best[1] / 1000.0);
    same
}

fn list(units: usize) -> Vec<Row> {
    (0..units).map(|k| Row { stratum: 0, cluster: 0, size: [1, 2, 3, 4, 6, 8, 12][k % 7] }).collect()
}

// Eight strata of sixteen clusters of eight units.
fn strata() -> Vec<Row> {
    (0..1024u16)
        .map(|k| Row { stratum: k / 128, cluster: k / 8 % 16, size: [1, 2, 3, 4][usize::from(k % 4)] })
        .collect()
}

fn file_of(list: &[Row], takes: &[u32], m: u32) -> Vec<u8> {
    let n: u32 = takes.iter().sum();
    let takes: Vec<String> = takes.iter().map(u32::to_string).collect();
    let mut file = format!("{n},{m},1969\n{}\n", takes.join(","));
    for (k, row) in list.iter().enumerate() {
        file += &format!("{},{},{},{},{}\n", row.stratum, row.cluster, row.size, k as i32 * 37 - 9_000, k % 6);
    }
    file.into_bytes()
}

// Both answer so many frame files by chance, and have to agree.
fn compare(count: u32, seed: u64) -> bool {
    let mut chance = files::Chance::new(seed);
    let mut samples = 0;
    for i in 0..count {
        let file = files::any(&mut chance);
        let wanted = plain::respond::respond(&file);
        if proved::respond(&file) != wanted.as_bytes() {
            println!("file {i} of seed {seed}: the answers differ");
            return false;
        }
        samples += u32::from(!wanted.starts_with("fault"));
    }
    println!("{count} frame files by chance, of which {samples} give a sample: all answers agree.\n");
    true
}

fn main() -> ExitCode {
    let count = std::env::args().nth(1).and_then(|count| count.parse().ok()).unwrap_or(50_000);
    if !compare(count, 1969) {
        return ExitCode::FAILURE;
    }
    println!("| call | proved, µs | plain Rust, µs | ratio |\n|---|---|---|---|");
    let mut same = true;
    for (units, n) in [(100, 10), (1024, 60)] {
        same &= plain_design::<Systematic>(0, "systematic", units, n);
        same &= plain_design::<Pivotal>(1, "pivotal", units, n);
        same &= plain_design::<Poisson>(2, "Poisson", units, n);
    }
    same &= layers_and_reports();
    same &= whole_calls();
    if same { ExitCode::SUCCESS } else { ExitCode::FAILURE }
}

fn plain_design<D: Design + Default>(method: u8, name: &str, units: usize, n: u32) -> bool {
    let list = list(units);
    let sizes: Vec<u32> = list.iter().map(|row| row.size).collect();
    let times = 200_000 / units as u32;
    let begun = time(
        &format!("begin, {name}, {units} units"),
        times,
        |times| proved::begin(method, &sizes, n, times) as i64,
        |times| begin_often(&mut D::default(), &list, n, times) as i64,
    );
    let drawn = time(
        &format!("whole draw, {name}, {units} units"),
        times,
        |times| proved::draw(method, &sizes, n, 7, times) as i64,
        |times| draw_often(&mut D::default(), &list, n, 7, times) as i64,
    );
    begun && drawn
}

fn layers_and_reports() -> bool {
    let rows = strata();
    let (takes, m) = ([8; 8], 2);
    let n = 64;
    let mut same = time(
        "whole draw, two stages in strata, 1024 units",
        300,
        |times| proved::draw_strata(&rows, &takes, m, n, 7, times) as i64,
        |times| {
            let mut stages = TwoStage::over(Pivotal::default(), Systematic::default());
            let _ = stages.within(m);
            let mut design = Stratified::over(stages);
            let _ = design.allot(&takes);
            draw_often(&mut design, &rows, n, 7, times) as i64
        },
    );
    let rows = list(1024);
    let sizes: Vec<u32> = rows.iter().map(|row| row.size).collect();
    let amounts: Vec<i32> = (0..1024).map(|k| k * 977 % 20_000 - 10_000).collect();
    same &= time(
        "report of money, 1024 units",
        2_000,
        |times| proved::report(&sizes, 60, 7, &amounts, times),
        |times| report_often(&rows, 60, 7, &amounts, times),
    );
    same
}

fn whole_calls() -> bool {
    let long = file_of(&strata(), &[8; 8], 2);
    let mut wrong_at_the_end = long.clone();
    wrong_at_the_end.truncate(long.len() - 2);
    let cluster: Vec<Row> = (0..1024u16).map(|k| Row { stratum: 0, cluster: k / 8, size: 1 }).collect();
    let files: [(&str, Vec<u8>); 5] = [
        ("three units", b"1,1,1\n1\n1,1,1,5,0\n1,1,2,-4,4\n1,2,3,7,4\n".to_vec()),
        ("128 units", file_of(&strata()[..128], &[8], 2)),
        ("1024 units in eight strata", long),
        ("1024 units in one stratum of 128 clusters", file_of(&cluster, &[128], 2)),
        ("1024 units, wrong in the last line", wrong_at_the_end),
    ];
    let mut same = true;
    for (name, file) in &files {
        same &= time(
            &format!("the program's whole call, {name}"),
            (20_000_000 / (file.len() as u32 * 100 + 20_000)).max(1) * 3,
            |times| proved::respond_often(file, times) as i64,
            |times| (0..times).map(|_| plain::respond::respond(black_box(file)).len() as i64).sum(),
        );
    }
    same
}
