//! Runs a program and says how much processor time it took: on a machine that others use too, this is steadier than the
//! time that passed.

use std::fs::File;
use std::io::Read;
use std::os::unix::process::CommandExt;
use std::path::Path;
use std::process::{Command, Stdio};

#[repr(C)]
#[derive(Default)]
struct Usage {
    /// User and system time, each as seconds and microseconds.
    times: [i64; 4],
    others: [i64; 14],
}

extern "C" {
    fn wait4(process: i32, status: *mut i32, options: i32, usage: *mut Usage) -> i32;
    fn setrlimit(resource: i32, limit: *const [u64; 2]) -> i32;
}

const PROCESSOR_SECONDS: i32 = 0;

pub struct Ran {
    pub milliseconds: f64,
    pub printed: String,
    /// The exit status, or None if a signal (the limit) ended it.
    pub status: Option<i32>,
}

/// Runs the command with the file as standard input; it is ended after the given processor seconds.
pub fn run(command: &mut Command, input: &Path, seconds: u64) -> std::io::Result<Ran> {
    command.stdin(File::open(input)?).stdout(Stdio::piped()).stderr(Stdio::null());
    let limit = [seconds, seconds];
    // SAFETY: setrlimit may be called between fork and exec, and the limit is a pair of 64-bit numbers on Linux.
    unsafe {
        command.pre_exec(move || {
            if setrlimit(PROCESSOR_SECONDS, &limit) == 0 {
                Ok(())
            } else {
                Err(std::io::Error::last_os_error())
            }
        })
    };
    let mut child = command.spawn()?;
    let mut printed = Vec::new();
    child.stdout.take().expect("a pipe from the program").read_to_end(&mut printed)?;
    let (mut status, mut usage) = (0, Usage::default());
    // SAFETY: the child is ours and not waited for yet; `Usage` has the size of Linux's struct rusage.
    if unsafe { wait4(child.id() as i32, &mut status, 0, &mut usage) } < 0 {
        return Err(std::io::Error::last_os_error());
    }
    let [user, user_micro, system, system_micro] = usage.times.map(|n| n as f64);
    Ok(Ran {
        milliseconds: 1e3 * (user + system) + 1e-3 * (user_micro + system_micro),
        printed: String::from_utf8_lossy(&printed).into_owned(),
        status: (status & 127 == 0).then_some(status >> 8 & 255),
    })
}

pub fn median(times: &mut [f64]) -> f64 {
    times.sort_by(f64::total_cmp);
    times[times.len() / 2]
}
