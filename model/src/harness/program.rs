//! What the model's programs have in common: words in, a request that is answered, and a status out.

use std::io;
use std::process::ExitCode;

/// Runs a program on the words behind its name. Words that are no request are answered with the complaint of `read`.
pub fn run<Request>(
    name: &str,
    read: impl FnOnce(&[&str]) -> Result<Request, String>,
    answer: impl FnOnce(&Request) -> io::Result<()>,
) -> ExitCode {
    let words: Vec<String> = std::env::args().skip(1).collect();
    let words: Vec<&str> = words.iter().map(String::as_str).collect();
    let request = match read(&words) {
        Ok(request) => request,
        Err(complaint) => {
            eprintln!("{complaint}");
            return ExitCode::from(2);
        }
    };
    match answer(&request) {
        Ok(()) => ExitCode::SUCCESS,
        Err(error) => {
            eprintln!("{name}: {error}");
            ExitCode::FAILURE
        }
    }
}
