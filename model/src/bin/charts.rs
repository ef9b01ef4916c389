//! Writes the charts that test the check and the flattener, and what the model makes of them.

use model::chart::Edition;
use model::harness::program::run;
use model::harness::{bytes_of, cases, names, report};
use std::io::{self, BufWriter, Write};
use std::process::ExitCode;

const USAGE: &str = "usage: charts rows EDITION | classes EDITION | list EDITION | bytes NAME
     | random EDITION SEED COUNT | cases input | cases expected
EDITION is plain or guarded";

enum Request {
    Rows(Edition),
    Classes(Edition),
    List(Edition),
    Bytes(Vec<u8>),
    Random {
        edition: Edition,
        seed: u64,
        count: usize,
    },
    CasesInput,
    CasesExpected,
}

fn main() -> ExitCode {
    run("charts", read_request, answer)
}

fn read_request(words: &[&str]) -> Result<Request, String> {
    match words {
        ["rows", edition] => Ok(Request::Rows(read_edition(edition)?)),
        ["classes", edition] => Ok(Request::Classes(read_edition(edition)?)),
        ["list", edition] => Ok(Request::List(read_edition(edition)?)),
        ["bytes", name] => {
            let bytes = bytes_of(name).ok_or(format!("no chart is named {name}"))?;
            Ok(Request::Bytes(bytes))
        }
        ["random", edition, seed, count] => Ok(Request::Random {
            edition: read_edition(edition)?,
            seed: seed.parse().map_err(|_| USAGE)?,
            count: count.parse().map_err(|_| USAGE)?,
        }),
        ["cases", "input"] => Ok(Request::CasesInput),
        ["cases", "expected"] => Ok(Request::CasesExpected),
        _ => Err(String::from(USAGE)),
    }
}

fn read_edition(word: &str) -> Result<Edition, String> {
    match word {
        "plain" => Ok(Edition::Plain),
        "guarded" => Ok(Edition::Guarded),
        _ => Err(String::from(USAGE)),
    }
}

fn answer(request: &Request) -> io::Result<()> {
    let mut out = BufWriter::new(io::stdout().lock());
    match request {
        Request::Rows(edition) => report::write_rows(&mut out, *edition)?,
        Request::Classes(edition) => report::write_classes(&mut out, *edition)?,
        Request::List(edition) => {
            for name in names(*edition) {
                writeln!(out, "{name}")?;
            }
        }
        Request::Bytes(bytes) => out.write_all(bytes)?,
        Request::Random {
            edition,
            seed,
            count,
        } => report::write_random(&mut out, *edition, *seed, *count)?,
        Request::CasesInput => cases::write_input(&mut out)?,
        Request::CasesExpected => cases::write_expected(&mut out)?,
    }
    out.flush()
}
