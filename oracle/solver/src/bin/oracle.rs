//! oracle < SHEET              the listing of document 01
//! oracle FILE                 the same for a file
//! oracle --many < FILE        many sheets, each listing followed by `--`
//! oracle --deep FILE          the listing, then each event of the solve as `#` lines
//! oracle --systems FILE       each system that was factored and solved, a line each (systems)
//! oracle --parts              single functions, asked a line at a time (parts.rs)
//! oracle --power              hex f64 a line -> hex of document 01's power
//! oracle --build              the name of this build
//! oracle --substitutions      what was replaced in the original's text

use epanet_oracle::{BUILD, SUBSTITUTIONS, answer, hook, many, parts, recipe};
use faer::told;
use simplelog::trace::Event;
use std::io::{self, BufRead, BufReader, BufWriter, Read, Write};
use std::process::ExitCode;

const USAGE: &str = "usage: oracle [FILE | --many | --deep FILE | --systems FILE | --parts | --power | --build | --substitutions]";

fn main() -> ExitCode {
    let args: Vec<String> = std::env::args().skip(1).collect();
    let args: Vec<&str> = args.iter().map(String::as_str).collect();
    let done = match args[..] {
        [] => one(io::stdin().lock()),
        ["--many"] => many::run(
            BufReader::new(io::stdin().lock()),
            BufWriter::new(io::stdout().lock()),
        ),
        ["--deep", file] => deep(file),
        ["--systems", file] => systems(file),
        ["--parts"] => parts::run(io::stdin().lock(), BufWriter::new(io::stdout().lock())),
        ["--power"] => powers(),
        ["--build"] => writeln!(io::stdout(), "{BUILD}"),
        ["--substitutions"] => write!(io::stdout(), "{SUBSTITUTIONS}"),
        [file] if !file.starts_with('-') => std::fs::File::open(file).and_then(one),
        _ => {
            eprintln!("{USAGE}");
            return ExitCode::from(2);
        }
    };
    match done {
        Ok(()) => ExitCode::SUCCESS,
        Err(e) => {
            eprintln!("oracle: {e}");
            ExitCode::FAILURE
        }
    }
}

fn one(mut input: impl Read) -> io::Result<()> {
    let mut bytes = Vec::new();
    input.read_to_end(&mut bytes)?;
    write!(io::stdout(), "{}", answer::run(&bytes).listing())
}

fn deep(file: &str) -> io::Result<()> {
    hook::deep(true);
    let answer = answer::run(&std::fs::read(file)?);
    let mut out = BufWriter::new(io::stdout().lock());
    write!(out, "{}", answer.listing())?;
    for event in &answer.events {
        match event {
            Event::State {
                heads,
                flows,
                drawn,
            } => {
                writeln!(out, "# heads {heads:?}\n# flows {flows:?}")?;
                if !drawn.is_empty() {
                    writeln!(out, "# drawn {drawn:?}")?;
                }
            }
            event => writeln!(out, "# {event:?}")?,
        }
    }
    Ok(())
}

/// A line: the unknowns, the lower triangle row by row, the right side, all f64s in hex.
fn systems(file: &str) -> io::Result<()> {
    let bytes = std::fs::read(file)?;
    told::start();
    answer::run(&bytes);
    let mut out = BufWriter::new(io::stdout().lock());
    for s in told::take().iter().filter(|s| s.right.len() == s.n) {
        write!(out, "{}", s.n)?;
        let rows = (0..s.n).flat_map(|r| &s.lower[r * s.n..r * s.n + r + 1]);
        for x in rows.chain(&s.right) {
            write!(out, " {}", answer::hex(*x))?;
        }
        writeln!(out)?;
    }
    Ok(())
}

fn powers() -> io::Result<()> {
    let mut out = BufWriter::new(io::stdout().lock());
    for line in io::stdin().lock().lines() {
        let bits = u64::from_str_radix(line?.trim(), 16).map_err(io::Error::other)?;
        let power = recipe::power(f64::from_bits(bits));
        writeln!(out, "{}", answer::hex(power))?;
    }
    Ok(())
}
