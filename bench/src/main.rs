//! Compares the proved core with a model written from docs/RULES.md, and times it.

mod check;
mod law;
mod model;
mod order;
mod plain;
mod proved;
mod random;
mod runs;
mod speed;

use std::env;
use std::process::ExitCode;

/// The core's largest tray is kept on the stack when it runs over lent memory.
const STACK: usize = 64 << 20;

fn number(argument: Option<String>, otherwise: u64) -> u64 {
    argument.and_then(|text| text.parse().ok()).unwrap_or(otherwise)
}

fn main() -> ExitCode {
    let mut arguments = env::args().skip(1);
    let what = arguments.next().unwrap_or_else(|| "check".into());
    let worker = std::thread::Builder::new().stack_size(STACK);
    let run = match what.as_str() {
        "check" => {
            let runs = number(arguments.next(), 10_000);
            let seed = number(arguments.next(), 1);
            worker.spawn(move || order::check(runs, seed) & check::check(runs, seed))
        }
        "speed" => worker.spawn(speed::speed),
        _ => {
            eprintln!("usage: bench check [RUNS [SEED]] | bench speed");
            return ExitCode::FAILURE;
        }
    };
    match run.expect("a thread starts").join() {
        Ok(true) => ExitCode::SUCCESS,
        _ => ExitCode::FAILURE,
    }
}
