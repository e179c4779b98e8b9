//! Explains captures as `gen2run decode` does and makes them as `gen2run encode` does, probes a tag as `gen2run probe` does, plays
//! scenarios as `gen2run run`, `gen2run run trace` and `gen2run run json` do, writes them in version 2 as `gen2run upgrade` does, audits
//! traces as `gen2run audit` does, compares portals as `gen2run portals` does, names what was listed as `gen2run names` does, and
//! summarises generated scenarios as `gen2run gen` does, in plain Rust and unproved, so that the time of the proved program can be
//! compared with it. It does the same work in the same form: in a run each command is encoded as a frame and decoded, each tag that hears
//! it does so by a method of its own and draws its own words, each answer is written as bits, and the one that the channel gives is
//! encoded as a stream of levels and decoded. A frame is heard symbol by symbol as it is made, high and low together, and its command bit by bit; built with
//! `--cfg whole_frames` it is written as a list and read as a whole, so that the two tell what that costs.

mod access;
mod audit;
mod bits;
mod command;
mod decode;
mod encode;
mod generated;
mod hearing;
mod json;
mod line_code;
mod locks;
mod memory;
mod names;
mod operation;
mod pie;
mod population;
mod portals;
mod probe;
mod scenario;
mod tag;
mod trace;
mod upgrade;
mod wheel;
mod world;

use decode::Explained;
use std::io::{self, Read, Write};
use std::process::ExitCode;

fn main() -> ExitCode {
    let words: Vec<String> = std::env::args().skip(1).collect();
    let words: Vec<&str> = words.iter().map(String::as_str).collect();
    if let ["gen", seed, tags] = words[..] {
        return match generated::summary(seed, tags) {
            Some(summary) => write(summary.as_bytes(), ExitCode::SUCCESS),
            None => ExitCode::from(2),
        };
    }
    if words == ["decode"] {
        return match decode::explain(io::stdin().lock()) {
            Ok(Explained::Answers(answers)) => write(&answers, ExitCode::SUCCESS),
            Ok(Explained::FaultLine(line)) => write(line.as_bytes(), ExitCode::from(3)),
            Err(_) => ExitCode::from(4),
        };
    }
    if words == ["encode"] {
        let mut input = Vec::new();
        return match io::stdin().read_to_end(&mut input).map(|_| encode::lines(&input)) {
            Ok(Ok(lines)) => write(&lines, ExitCode::SUCCESS),
            Ok(Err(fault)) => write(fault.as_bytes(), ExitCode::from(3)),
            Err(_) => ExitCode::from(4),
        };
    }
    if !matches!(words[..], ["run"] | ["run", "trace" | "json"] | ["upgrade" | "names" | "probe" | "audit" | "portals"]) {
        return ExitCode::from(2);
    }
    let mut text = String::new();
    if io::stdin().read_to_string(&mut text).is_err() {
        return ExitCode::from(4);
    }
    let result = if words == ["names"] {
        names::add_names(&text).map(String::into_bytes).map_err(|line| format!("fault {line} end\n"))
    } else if words == ["probe"] {
        probe::answers(&text).map_err(|line| format!("fault {line}\n"))
    } else if words == ["audit"] {
        audit::verdict(&text).map_err(|line| format!("fault {line}\n"))
    } else if words == ["portals"] {
        portals::lines(&text).map_err(|line| format!("fault {line}\n"))
    } else {
        let form = match words[..] {
            ["run", "trace"] => world::Form::Trace,
            ["run", "json"] => world::Form::Json,
            _ => world::Form::Plain,
        };
        match scenario::read(&text) {
            Ok(_) if words == ["upgrade"] => Ok(upgrade::text(&text).into_bytes()),
            Ok(scenario) => return status(world::play(scenario, form, io::stdout()), ExitCode::SUCCESS),
            Err(line) => Err(format!("fault {line}\n")),
        }
    };
    match result {
        Ok(output) => write(&output, ExitCode::SUCCESS),
        Err(fault) => write(fault.as_bytes(), ExitCode::from(3)),
    }
}

/// Writes the output; the status is this one, or that of a failed write.
fn write(output: &[u8], code: ExitCode) -> ExitCode {
    status(io::stdout().write_all(output), code)
}

/// The status behind a write: this one, or that of a failed write.
fn status(written: io::Result<()>, code: ExitCode) -> ExitCode {
    match written {
        Ok(()) => code,
        Err(_) => ExitCode::from(5),
    }
}
