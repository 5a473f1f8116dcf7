//! Expands a text: `expand [FILE] [-4 STYLES] [--report USES]`.
//!
//! Without FILE it is the text on standard input. Channel 4 is written to STYLES;
//! without that it has no room. The usage report is written to USES, which stays
//! empty where no run began.

use std::ffi::OsString;
use std::fs::File;
use std::io::{self, Read, Write};
use std::process::ExitCode;
use std::{env, fs};

use stage2_reference::programs::{self, OUTPUT_ROOM};

fn main() -> ExitCode {
    let arguments: Vec<OsString> = env::args_os().skip(1).collect();
    match expand(&arguments) {
        Ok(()) => ExitCode::SUCCESS,
        Err(message) => {
            eprintln!("expand: {message}");
            ExitCode::FAILURE
        }
    }
}

const USAGE: &str = "give the file of a text, or nothing to expand standard input; \
    then -4 and a file for channel 4, or nothing; then --report and a file for the usage report, or nothing";

/// Nothing is expanded before it is known that the other files can be opened, and
/// nothing printed before they are written.
fn expand(arguments: &[OsString]) -> Result<(), String> {
    let (arguments, report) = without(arguments, "--report");
    let (files, second) = without(arguments, "-4");
    let text = text(files)?;
    let second = second.map(Target::create).transpose()?;
    let report = report.map(Target::create).transpose()?;
    let expanded = programs::expand(&text, if second.is_some() { OUTPUT_ROOM } else { 0 });
    second.map_or(Ok(()), |target| target.write(&expanded.second))?;
    report.map_or(Ok(()), |target| target.write(&expanded.report))?;
    print(&expanded.printed)
}

/// The arguments before an option and its file, and that file, if they end with these.
fn without<'a>(arguments: &'a [OsString], option: &str) -> (&'a [OsString], Option<&'a OsString>) {
    match arguments {
        [rest @ .., name, file] if name == option => (rest, Some(file)),
        _ => (arguments, None),
    }
}

/// A file that is written to.
struct Target<'a> {
    name: &'a OsString,
    file: File,
}

impl<'a> Target<'a> {
    fn create(name: &'a OsString) -> Result<Target<'a>, String> {
        let file = File::create(name).map_err(|_| unwritten(name))?;
        Ok(Target { name, file })
    }

    fn write(mut self, bytes: &[u8]) -> Result<(), String> {
        self.file.write_all(bytes).map_err(|_| unwritten(self.name))
    }
}

fn unwritten(name: &OsString) -> String {
    format!("{} cannot be written", name.to_string_lossy())
}

/// The text of the only file, or of standard input where there is none.
fn text(files: &[OsString]) -> Result<Vec<u8>, String> {
    match files {
        [] => {
            let mut text = Vec::new();
            let read = io::stdin().lock().read_to_end(&mut text);
            read.map_err(|_| "standard input cannot be read".to_string())?;
            Ok(text)
        }
        [file] if file != "-4" && file != "--report" => {
            fs::read(file).map_err(|_| format!("{} cannot be read", file.to_string_lossy()))
        }
        _ => Err(USAGE.to_string()),
    }
}

fn print(bytes: &[u8]) -> Result<(), String> {
    io::stdout().lock().write_all(bytes).map_err(|_| "standard output cannot be written".to_string())
}
