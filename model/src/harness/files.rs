//! The files that the model shares with the programs it is compared with.

use crate::kernel::replay::Charts;
use std::fs;
use std::io::{self, ErrorKind};
use std::path::{Path, PathBuf};

/// What the crate of a program is run on, and what it must write.
pub fn write_run(program: &Path, input: &[u8], output: &[u8]) -> io::Result<()> {
    fs::write(program.join("stdin"), input)?;
    fs::write(program.join("stdout"), output)
}

/// An empty chart becomes a missing file.
pub fn write_charts(charts: &Charts, directory: &Path) -> io::Result<()> {
    fs::create_dir_all(directory)?;
    for (number, chart) in charts.iter().enumerate() {
        let path = chart_path(directory, number);
        match chart.is_empty() {
            // One of another trace may be left there.
            true => remove_if_there(&path)?,
            false => fs::write(path, chart)?,
        }
    }
    Ok(())
}

fn remove_if_there(path: &Path) -> io::Result<()> {
    match fs::remove_file(path) {
        Err(error) if error.kind() == ErrorKind::NotFound => Ok(()),
        other => other,
    }
}

/// A missing file becomes an empty chart.
pub fn read_charts(directory: &Path) -> io::Result<Charts> {
    let mut charts = Charts::default();
    for (number, chart) in charts.iter_mut().enumerate() {
        match fs::read(chart_path(directory, number)) {
            Ok(bytes) => *chart = bytes,
            Err(error) if error.kind() == ErrorKind::NotFound => {}
            Err(error) => return Err(error),
        }
    }
    Ok(charts)
}

fn chart_path(directory: &Path, number: usize) -> PathBuf {
    directory.join(format!("chart{number}"))
}
