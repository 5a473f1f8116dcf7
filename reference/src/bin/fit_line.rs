//! Fits each line of a file against the templates of a text.

use std::ffi::{OsStr, OsString};
use std::process::ExitCode;
use std::{env, fs};

use stage2_reference::programs;

fn main() -> ExitCode {
    let names: Vec<OsString> = env::args_os().skip(1).collect();
    match rows(&names) {
        Ok(rows) => {
            print!("{rows}");
            ExitCode::SUCCESS
        }
        Err(message) => {
            println!("fit_line: {message}");
            ExitCode::FAILURE
        }
    }
}

fn rows(names: &[OsString]) -> Result<String, String> {
    let [text, lines] = names else {
        return Err("give the file of the text and the file of the lines".to_string());
    };
    Ok(programs::fit_rows(&read(text)?, &read(lines)?))
}

fn read(name: &OsStr) -> Result<Vec<u8>, String> {
    fs::read(name).map_err(|_| format!("{} cannot be read", name.to_string_lossy()))
}
