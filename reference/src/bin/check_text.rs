//! Prints for each file whether it loads: its name, the number and the line.

use std::ffi::OsString;
use std::process::ExitCode;
use std::{env, fs};

use stage2_reference::programs;

fn main() -> ExitCode {
    match rows(env::args_os().skip(1).collect()) {
        Ok(rows) => {
            print!("{rows}");
            ExitCode::SUCCESS
        }
        Err(message) => {
            println!("check_text: {message}");
            ExitCode::FAILURE
        }
    }
}

/// All lines, or a message alone: nothing is printed before every file is read.
fn rows(names: Vec<OsString>) -> Result<String, String> {
    if names.is_empty() {
        return Err("give the names of the files to check".to_string());
    }
    let mut rows = String::new();
    for name in names {
        let text = fs::read(&name);
        let name = name.to_string_lossy();
        let text = text.map_err(|_| format!("{name} cannot be read"))?;
        rows.push_str(&programs::check_row(&name, &text));
    }
    Ok(rows)
}
