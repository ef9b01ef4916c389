//! Writes random traces, and what the model answers to them.

use model::harness::files::{read_charts, write_charts, write_run};
use model::harness::program::run;
use model::harness::traces::areas::{self, Calls};
use model::harness::traces::coverage::Coverage;
use model::harness::traces::{show, Trace};
use model::kernel::numbers::REPLY_BYTES;
use model::kernel::replay::replay;
use std::fs;
use std::io::{self, BufWriter, Read, Write};
use std::path::{Path, PathBuf};
use std::process::ExitCode;

const USAGE: &str = "usage: traces write SEED COMMANDS DIR | replay DIR | show < REPLIES
     | coverage FIRST_SEED COUNT COMMANDS | areas CRATE SEED:CALLS.. | coverage_of_areas SEED:CALLS..
     | vectors CRATE SEED:COMMANDS.. | coverage_of_vectors SEED:COMMANDS..";

/// Seeds, and how many commands or calls to make of each.
type Seeds = Vec<(u64, usize)>;

enum Request {
    Write {
        seed: u64,
        commands: usize,
        directory: PathBuf,
    },
    Replay {
        directory: PathBuf,
    },
    Show,
    Coverage(Seeds),
    CoverageOfAreas(Seeds),
    Areas {
        program: PathBuf,
        runs: Seeds,
    },
    Vectors {
        program: PathBuf,
        traces: Seeds,
    },
}

fn main() -> ExitCode {
    let read = |words: &[&str]| read_request(words).ok_or(String::from(USAGE));
    run("traces", read, answer)
}

fn read_request(words: &[&str]) -> Option<Request> {
    Some(match words {
        ["write", seed, commands, directory] => Request::Write {
            seed: seed.parse().ok()?,
            commands: commands.parse().ok()?,
            directory: PathBuf::from(directory),
        },
        ["replay", directory] => Request::Replay {
            directory: PathBuf::from(directory),
        },
        ["show"] => Request::Show,
        ["coverage", first_seed, count, commands] => {
            let (first, count): (u64, u64) = (first_seed.parse().ok()?, count.parse().ok()?);
            let commands = commands.parse().ok()?;
            let seeds = first..first + count;
            Request::Coverage(seeds.map(|seed| (seed, commands)).collect())
        }
        ["coverage_of_vectors", traces @ ..] => Request::Coverage(read_pairs(traces)?),
        ["coverage_of_areas", runs @ ..] => Request::CoverageOfAreas(read_pairs(runs)?),
        ["areas", program, runs @ ..] => Request::Areas {
            program: PathBuf::from(program),
            runs: read_pairs(runs)?,
        },
        ["vectors", program, traces @ ..] => Request::Vectors {
            program: PathBuf::from(program),
            traces: read_pairs(traces)?,
        },
        _ => return None,
    })
}

fn read_pairs(words: &[&str]) -> Option<Seeds> {
    words.iter().map(|word| read_pair(word)).collect()
}

fn read_pair(word: &str) -> Option<(u64, usize)> {
    let (seed, commands) = word.split_once(':')?;
    Some((seed.parse().ok()?, commands.parse().ok()?))
}

fn answer(request: &Request) -> io::Result<()> {
    let mut out = BufWriter::new(io::stdout().lock());
    match request {
        Request::Write {
            seed,
            commands,
            directory,
        } => write_trace(&Trace::random(*seed, *commands), directory)?,
        Request::Replay { directory } => {
            let trace = fs::read(directory.join("trace"))?;
            out.write_all(&replay(&trace, &read_charts(directory)?))?;
        }
        Request::Show => {
            let mut replies = Vec::new();
            io::stdin().read_to_end(&mut replies)?;
            for reply in replies.chunks(REPLY_BYTES) {
                writeln!(out, "{}", show::line(reply))?;
            }
        }
        Request::Coverage(traces) => {
            Coverage::of_traces(traces.iter().copied()).write(&mut out)?;
        }
        Request::CoverageOfAreas(runs) => areas::coverage(runs).write_calls(&mut out)?,
        Request::Areas { program, runs } => {
            let calls = Calls::random(runs);
            write_run(program, &calls.input, calls.lines.as_bytes())?;
        }
        Request::Vectors { program, traces } => write_vectors(program, traces)?,
    }
    out.flush()
}

/// The traces of the program `vectors`: for each the letter of its folder of charts, its length, and
/// its records.
fn write_vectors(program: &Path, traces: &[(u64, usize)]) -> io::Result<()> {
    let mut input = Vec::new();
    let mut output = Vec::new();
    for (folder, &(seed, commands)) in (b'a'..=b'z').zip(traces) {
        let trace = Trace::random(seed, commands);
        let length = u16::try_from(trace.records.len()).map_err(io::Error::other)?;
        input.push(folder);
        input.extend(length.to_le_bytes());
        input.extend(&trace.records);
        output.extend(&trace.replies);
        let folder = char::from(folder).to_string();
        write_charts(&trace.charts, &program.join("data").join(folder))?;
    }
    write_run(program, &input, &output)
}

/// The trace with the model's replies, in a folder of their own.
fn write_trace(trace: &Trace, directory: &Path) -> io::Result<()> {
    fs::create_dir_all(directory)?;
    fs::write(directory.join("trace"), &trace.records)?;
    fs::write(directory.join("replies"), &trace.replies)?;
    write_charts(&trace.charts, directory)
}
