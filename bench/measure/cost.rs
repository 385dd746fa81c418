//! What a transfer costs by the file's size and by loss, as tables and as a file to plot.

use std::fmt::Write;
use std::fs;
use std::io;
use std::path::Path;

use super::clock;
use super::transfers::{FIELDS, job, output, sent};

const TURNS: usize = 60;

/// Jobs that differ in one thing, x: what the thing is, and for each x the script and the size. All are woven.
struct Series {
    title: &'static str,
    by: &'static str,
    points: Vec<(usize, &'static str, usize)>,
}

fn series() -> [Series; 2] {
    let scripts = ["kkkk", "kkkl", "kkll", "klll"];
    [
        Series {
            title: "Milliseconds beyond an empty file's transfer, and frames sent, by size: woven, 1 frame of 4 lost",
            by: "bytes",
            points: (0..=16).map(|k| (1000 * k, "kkkl", 1000 * k)).collect(),
        },
        Series {
            title: "The same by frames lost of 4: woven, 16,000 bytes",
            by: "lost",
            points: scripts.iter().zip(0..).map(|(script, lost)| (lost, *script, 16_000)).collect(),
        },
    ]
}

pub fn measure(deliver: &Path, directory: &Path) -> io::Result<()> {
    let mut table = String::from("by,x,field,milliseconds,frames\n");
    for Series { title, by, points } in series() {
        let mut jobs = Vec::new();
        for (_, script, size) in &points {
            for (field, _) in FIELDS {
                jobs.push(job(directory, field, "2", script, *size)?);
            }
        }
        let times = clock::jobs(&[deliver], &jobs, TURNS)?;
        println!("\n{title}");
        print!("{by:<8}");
        FIELDS.iter().for_each(|(_, name)| print!("{name:>12}{:>8}", "frames"));
        println!();
        let mut measured = jobs.iter().zip(&times);
        for (x, _, _) in points {
            print!("{x:<8}");
            for ((_, name), (job, times)) in FIELDS.iter().zip(&mut measured) {
                let time = times.beyond[0].max(0.0);
                let frames = sent(&output(deliver, &job.input)?);
                print!("{time:>12.2}{frames:>8}");
                let _ = writeln!(table, "{by},{x},{name},{time:.3},{frames}");
            }
            println!();
        }
    }
    fs::write(directory.join("cost.csv"), table)
}
