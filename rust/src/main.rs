//! `compare`: runs the comparisons that are asked for.

mod options;

use options::{Options, USAGE};
use second::compare::bounds::Programs;
use second::compare::{bounds, caches, evidence, files, finds, frames, salvages, times, walks, ways, writes};
use second::must_break;
use second::pipe::Pipe;
use std::process::ExitCode;
use std::time::Instant;

/// What `all` stands for.
const ALL: [&str; 12] = [
    "caches",
    "frames",
    "files",
    "writes",
    "bounds",
    "evidence",
    "finds",
    "salvages",
    "ways",
    "times",
    "walks",
    "must-break",
];

fn main() -> ExitCode {
    let options = match options::read(std::env::args().skip(1)) {
        Ok(options) if !options.parts.is_empty() => options,
        Ok(_) => return usage("no part is named"),
        Err(fault) => return usage(&fault),
    };
    let named = options.parts.iter().map(String::as_str);
    let parts: Vec<&str> = named.flat_map(|part| if part == "all" { ALL.to_vec() } else { vec![part] }).collect();
    for part in parts {
        let begin = Instant::now();
        println!("== {part}, seed {}", options.settings.seed);
        match run(part, &options) {
            Ok(()) => println!("{part}: passed, {:.1} seconds\n", begin.elapsed().as_secs_f64()),
            Err(Failure::Usage(fault)) => return usage(&fault),
            Err(Failure::Case(case)) => {
                println!("{part}: FAILED, seed {}\n{case}", options.settings.seed);
                return ExitCode::from(1);
            }
        }
    }
    ExitCode::SUCCESS
}

enum Failure {
    Usage(String),
    Case(String),
}

fn run(part: &str, options: &Options) -> Result<(), Failure> {
    let settings = &options.settings;
    let pipe = || known(part, "pipe", &options.pipe);
    let result = match part {
        "caches" => caches::run(pipe()?, settings),
        "frames" => frames::run(pipe()?, settings),
        "files" => files::run(pipe()?, settings),
        "writes" => writes::run(pipe()?, settings),
        "bounds" => bounds::run(&programs(part, options)?, pipe()?, settings),
        "evidence" => evidence::run(pipe()?, settings),
        "finds" => finds::run(pipe()?, settings),
        "salvages" => salvages::run(pipe()?, settings),
        "ways" => ways::run(pipe()?, settings),
        "times" => times::run(pipe()?, settings),
        "walks" => walks::run(pipe()?, settings),
        "must-break" => must_break::run(options.pipe.as_ref()),
        "search" => must_break::search(settings),
        _ => return Err(Failure::Usage(format!("no part {part}"))),
    };
    result.map_err(Failure::Case)
}

/// How a program is started that the part needs.
fn known<'a>(part: &str, name: &str, program: &'a Option<Pipe>) -> Result<&'a Pipe, Failure> {
    program.as_ref().ok_or(Failure::Usage(format!("{part} needs to know how to start {name}")))
}

fn programs<'a>(part: &str, options: &'a Options) -> Result<Programs<'a>, Failure> {
    let bounds = known(part, "bounds", &options.bounds)?;
    let bounds0 = known(part, "bounds0", &options.bounds0)?;
    Ok(Programs { bounds, bounds0 })
}

fn usage(fault: &str) -> ExitCode {
    eprintln!("compare: {fault}\n\n{USAGE}");
    ExitCode::from(2)
}
