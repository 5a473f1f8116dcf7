//! Writes random texts to a folder: `generate small|large SEED COUNT FOLDER`.
//!
//! Text n of a seed is the same whatever the count, so that one text can be
//! had again without the others.

use std::path::Path;
use std::process::ExitCode;
use std::{env, fs};

use stage2_reference::generate::{Generator, Size};

fn main() -> ExitCode {
    let arguments: Vec<String> = env::args().skip(1).collect();
    match write(&arguments) {
        Ok(()) => ExitCode::SUCCESS,
        Err(message) => {
            println!("generate: {message}");
            ExitCode::FAILURE
        }
    }
}

fn write(arguments: &[String]) -> Result<(), String> {
    let usage = || "give small or large, a seed, a count and a folder".to_string();
    let [size, seed, count, folder] = arguments else {
        return Err(usage());
    };
    let size = match size.as_str() {
        "small" => Size::Small,
        "large" => Size::Large,
        _ => return Err(usage()),
    };
    let seed: u64 = seed.parse().map_err(|_| usage())?;
    let count: u64 = count.parse().map_err(|_| usage())?;
    let mut generator = Generator::new(seed);
    for n in 0..count {
        let path = Path::new(folder).join(format!("{n:06}.text"));
        let text = generator.text(size);
        fs::write(&path, text).map_err(|_| format!("{} cannot be written", path.display()))?;
    }
    Ok(())
}
