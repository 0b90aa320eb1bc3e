//! bench N FILE...     times N whole solves of each sheet
//!
//! `solve`: the original's HydraulicSolver::solve alone (solver and state built
//! once). `whole`: sheet to network, HydraulicSolver::new, state and solve.
//! The trace is off. Times are the median and the least of N, in microseconds.

use epanet_oracle::BUILD;
use epanet_oracle::answer;
use epanet_oracle::network::{network_of, state_of};
use epanet_oracle::sheet::Sheet;
use epanet_oracle::solver::hydraulicsolver::HydraulicSolver;
use std::hint::black_box;
use std::process::ExitCode;
use std::time::Instant;

fn times(n: usize, mut f: impl FnMut()) -> (f64, f64) {
    for _ in 0..n / 10 + 1 {
        f();
    }
    let mut t: Vec<f64> = (0..n)
        .map(|_| {
            let start = Instant::now();
            f();
            start.elapsed().as_secs_f64() * 1e6
        })
        .collect();
    t.sort_by(|a, b| a.total_cmp(b));
    (t[n / 2], t[0])
}

fn main() -> ExitCode {
    let args: Vec<String> = std::env::args().skip(1).collect();
    let count = args.first().and_then(|n| n.parse().ok());
    let (Some(n), true) = (count.filter(|&n| n > 0), args.len() > 1) else {
        eprintln!("usage: bench N FILE...");
        return ExitCode::from(2);
    };
    println!("build {BUILD}, {n} solves each, microseconds");
    println!(
        "{:<28} {:>5} {:>5} {:>3} {:>6} {:>10} {:>10} {:>10} {:>10}",
        "sheet",
        "nodes",
        "links",
        "A",
        "trials",
        "solve med",
        "solve min",
        "whole med",
        "whole min"
    );
    for file in &args[1..] {
        match std::fs::read(file) {
            Ok(bytes) => println!("{:<28} {}", name(file), row(n, &bytes)),
            Err(error) => {
                eprintln!("bench: {file}: {error}");
                return ExitCode::FAILURE;
            }
        }
    }
    ExitCode::SUCCESS
}

fn name(file: &str) -> &str {
    file.rsplit('/').next().unwrap_or(file)
}

fn row(n: usize, bytes: &[u8]) -> String {
    let answer = answer::run(bytes);
    let Ok(sheet) = Sheet::parse(bytes) else {
        return format!("refused {}", answer.number);
    };
    let network = network_of(&sheet);
    let state = state_of(&sheet, &network);
    let solver = HydraulicSolver::new(&network).expect("the stand-in's ordering never fails");
    let (median, least) = times(n, || {
        let _ = black_box(solver.solve(black_box(&network), black_box(&state)));
    });
    let (whole_median, whole_least) = times(n, || whole(black_box(bytes)));
    format!(
        "{:>5} {:>5} {:>3} {:>6} {median:>10.1} {least:>10.1} {whole_median:>10.1} {whole_least:>10.1}",
        sheet.nodes.len(),
        sheet.links.len(),
        answer.number,
        answer.record.len()
    )
}

/// Sheet to result, with nothing kept from an earlier solve.
fn whole(bytes: &[u8]) {
    let sheet = Sheet::parse(bytes).expect("read before");
    let network = network_of(&sheet);
    let state = state_of(&sheet, &network);
    let solver = HydraulicSolver::new(&network).expect("the stand-in's ordering never fails");
    let _ = black_box(solver.solve(&network, &state));
}
