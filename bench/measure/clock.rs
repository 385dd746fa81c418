//! How long things take.

use std::fs::File;
use std::io;
use std::os::raw::{c_int, c_long};
use std::path::{Path, PathBuf};
use std::process::{Command, Stdio};
use std::time::Instant;

/// What the system tells of an ended process: its time as a user, then in the system, each in seconds and
/// microseconds, and 14 numbers that are not used.
#[repr(C)]
#[derive(Default)]
struct Usage {
    user: [c_long; 2],
    system: [c_long; 2],
    rest: [c_long; 14],
}

unsafe extern "C" {
    fn wait4(process: c_int, status: *mut c_int, options: c_int, usage: *mut Usage) -> c_int;
}

/// The CPU time of one run of the program on this input, in milliseconds.
fn run(program: &Path, input: &Path) -> io::Result<f64> {
    #[allow(clippy::zombie_processes)] // waited for by wait4, which tells the time
    let child = Command::new(program).stdin(File::open(input)?).stdout(Stdio::null()).spawn()?;
    let mut usage = Usage::default();
    let mut status = 0;
    let ended = unsafe { wait4(child.id() as c_int, &mut status, 0, &mut usage) };
    if ended != child.id() as c_int || status != 0 {
        return Err(io::Error::other(format!("{} failed", program.display())));
    }
    let milliseconds = |[seconds, micros]: [c_long; 2]| seconds as f64 * 1e3 + micros as f64 / 1e3;
    Ok(milliseconds(usage.user) + milliseconds(usage.system))
}

fn middle(mut times: Vec<f64>) -> f64 {
    times.sort_by(f64::total_cmp);
    times[times.len() / 2]
}

/// A job, and the job that is left out of its time: the same with an empty file.
pub struct Job {
    pub input: PathBuf,
    pub empty: PathBuf,
}

/// The CPU time of a job in each program, in milliseconds.
pub struct Times<const N: usize> {
    pub whole: [f64; N],
    /// Beyond what the job with the empty file takes, which is run right before.
    pub beyond: [f64; N],
}

/// The times of each job, in their order: of all turns the middle one.
pub fn jobs<const N: usize>(programs: &[&Path; N], jobs: &[Job], turns: usize) -> io::Result<Vec<Times<N>>> {
    let mut times = vec![([const { Vec::new() }; N], [const { Vec::new() }; N]); jobs.len()];
    for _ in 0..turns {
        for ((whole, beyond), job) in times.iter_mut().zip(jobs) {
            for (i, program) in programs.iter().enumerate() {
                let empty = run(program, &job.empty)?;
                let full = run(program, &job.input)?;
                whole[i].push(full);
                beyond[i].push(full - empty);
            }
        }
    }
    let middles = times.into_iter().map(|(whole, beyond)| Times { whole: whole.map(middle), beyond: beyond.map(middle) });
    Ok(middles.collect())
}

/// The least time of each candidate, in nanoseconds for one of the `count` calls that a turn makes.
pub fn calls(candidates: &mut [&mut dyn FnMut()], count: u32, turns: usize) -> Vec<f64> {
    let mut least = vec![f64::INFINITY; candidates.len()];
    for _ in 0..turns {
        for (least, candidate) in least.iter_mut().zip(candidates.iter_mut()) {
            let began = Instant::now();
            for _ in 0..count {
                candidate();
            }
            *least = least.min(began.elapsed().as_nanos() as f64 / f64::from(count));
        }
    }
    least
}
