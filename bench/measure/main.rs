//! Measures the proved program and its rows beside the same algorithm in Rust, and beside libraries: measure DELIVER DIR.
//!
//! The machine may be busy with other work. So the candidates take turns, many short ones, and a figure is the least
//! of its turns where a call is timed, and the middle one where a process is: a ratio within one run is fair.

#[allow(dead_code)]
#[path = "../peer/mod.rs"]
mod peer;

mod clock;
mod cost;
mod libraries;
mod rows;
mod transfers;

use std::path::Path;

fn main() -> std::io::Result<()> {
    let arguments: Vec<String> = std::env::args().collect();
    let [_, deliver, directory] = &arguments[..] else {
        eprintln!("usage: measure DELIVER DIR");
        std::process::exit(2);
    };
    let directory = Path::new(directory);
    let rust = directory.join("peer");
    let programs = [Path::new(deliver), &rust];
    rows::measure();
    if transfers::measure(&programs, directory)? {
        cost::measure(Path::new(deliver), directory)?;
    } else {
        println!("\n{deliver} writes something else than the program in Rust, so no transfer was measured");
    }
    Ok(())
}
