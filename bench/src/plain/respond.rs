//! The program's whole answer.

use super::designs::{Pivotal, Systematic};
use super::layers::{Stratified, TwoStage};
use super::reader::{Frame, read};
use super::survey::{Generator, Survey};
use super::{Design, Fault, Share};
use std::fmt::Write;

type Pile = Stratified<TwoStage<Pivotal, Systematic>>;

// The published line of a fault of the design or of the survey.
fn fault_line(fault: Fault) -> String {
    let line = match fault.number {
        21 | 22 => 0,
        _ => fault.row + 3,
    };
    format!("fault,{},{line},0,{}\n", fault.number, fault.depth)
}

fn print(frame: &Frame, survey: &Survey<Pile>, shares: &[Share]) -> Result<String, Fault> {
    let mut out = String::new();
    let mut money = 0i64;
    let mut table = [0i64; 6];
    for (k, (numerator, denominator)) in shares.iter().enumerate() {
        if survey.design.taken(k)? {
            let _ = writeln!(out, "{k},{numerator},{denominator}");
            money += survey.weights[k] as i64 * frame.money[k];
            table[frame.cells[k]] += survey.weights[k] as i64;
        }
    }
    let _ = writeln!(out, "scale,{}\nmoney,{money}", survey.scale);
    let [a, b, c, d, e, f] = table;
    let _ = writeln!(out, "table,{a},{b},{c},{d},{e},{f}");
    Ok(out)
}

fn sample(frame: &Frame) -> Result<String, Fault> {
    let mut stages = TwoStage::over(Pivotal::default(), Systematic::default());
    stages.within(frame.m)?;
    let mut design = Stratified::over(stages);
    design.allot(&frame.takes)?;
    let mut survey = Survey::start(design, &frame.list, frame.n)?;
    let shares = (0..frame.list.len()).map(|k| survey.design.share(k)).collect::<Result<Vec<_>, _>>()?;
    survey.draw_out(&mut Generator::new(frame.seed, 65_536))?;
    print(frame, &survey, &shares)
}

/// What is printed for the bytes of a frame file.
pub fn respond(bytes: &[u8]) -> String {
    match read(bytes) {
        Err((number, line, column)) => format!("fault,{number},{line},{column},0\n"),
        Ok(frame) => sample(&frame).unwrap_or_else(fault_line),
    }
}
