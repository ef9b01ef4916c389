//! Writes streams of frames, and what the model makes of them.

use model::harness::files::{read_charts, write_run};
use model::harness::frames::{damage, morning, record, Cases};
use model::harness::program::run;
use std::fs;
use std::io::{self, BufWriter, Read, Write};
use std::path::{Path, PathBuf};
use std::process::ExitCode;

const USAGE: &str = "usage: frames cases CRATE | random SEED STREAMS DIR | record DIR
     | damage SEED < FRAMES | morning < FRAMES";

enum Request {
    Cases {
        program: PathBuf,
    },
    Random {
        seed: u64,
        streams: usize,
        directory: PathBuf,
    },
    Record {
        directory: PathBuf,
    },
    Damage {
        seed: u64,
    },
    Morning,
}

fn main() -> ExitCode {
    let read = |words: &[&str]| read_request(words).ok_or(String::from(USAGE));
    run("frames", read, answer)
}

fn read_request(words: &[&str]) -> Option<Request> {
    Some(match words {
        ["cases", program] => Request::Cases {
            program: PathBuf::from(program),
        },
        ["random", seed, streams, directory] => Request::Random {
            seed: seed.parse().ok()?,
            streams: streams.parse().ok()?,
            directory: PathBuf::from(directory),
        },
        ["record", directory] => Request::Record {
            directory: PathBuf::from(directory),
        },
        ["damage", seed] => Request::Damage {
            seed: seed.parse().ok()?,
        },
        ["morning"] => Request::Morning,
        _ => return None,
    })
}

fn answer(request: &Request) -> io::Result<()> {
    let mut out = BufWriter::new(io::stdout().lock());
    match request {
        Request::Cases { program } => write_cases(&Cases::telling(), program)?,
        Request::Random {
            seed,
            streams,
            directory,
        } => {
            fs::create_dir_all(directory)?;
            write_cases(&Cases::random(*seed, *streams), directory)?;
        }
        Request::Record { directory } => {
            let trace = fs::read(directory.join("trace"))?;
            out.write_all(&record::frames_of(&trace, &read_charts(directory)?))?;
        }
        Request::Damage { seed } => out.write_all(&damage::by_seed(*seed, read_input()?))?,
        Request::Morning => out.write_all(morning::lines(&read_input()?).as_bytes())?,
    }
    out.flush()
}

fn write_cases(cases: &Cases, directory: &Path) -> io::Result<()> {
    write_run(directory, &cases.input, cases.lines.as_bytes())
}

fn read_input() -> io::Result<Vec<u8>> {
    let mut input = Vec::new();
    io::stdin().read_to_end(&mut input)?;
    Ok(input)
}
