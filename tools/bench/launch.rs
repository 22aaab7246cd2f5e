//! Starts programs, one for each line `STACK SHEET PROGRAM` of standard input (tabs between; the stack in KiB, 0 for as it
//! is), and answers `STATUS MICROSECONDS MEMORY`: the processor time, the program's and the system's for it, and the peak
//! of its resident memory in KiB. A program's peak counts from its fork on, so it is forked from a small process, this one.

use std::fs::File;
use std::io::{self, BufRead};
use std::os::unix::process::CommandExt;
use std::process::{Command, Stdio};

const RLIMIT_STACK: i32 = 3;

/// `struct rusage` of Linux on 64 bits: two times in seconds and microseconds, and then the peak.
#[repr(C)]
#[derive(Default)]
struct Usage {
    times: [[i64; 2]; 2],
    peak: i64,
    rest: [i64; 13],
}

extern "C" {
    fn wait4(pid: i32, status: *mut i32, options: i32, usage: *mut Usage) -> i32;
    fn setrlimit(resource: i32, limits: *const [u64; 2]) -> i32;
}

/// Sets the stack of the process that is to become the program.
fn bound(stack: u64) -> io::Result<()> {
    let limits = [stack << 10; 2];
    if stack > 0 && unsafe { setrlimit(RLIMIT_STACK, &limits) } != 0 {
        return Err(io::Error::last_os_error());
    }
    Ok(())
}

fn start(stack: u64, sheet: &str, program: &str) -> io::Result<(i32, Usage)> {
    let mut command = Command::new(program);
    command.env_clear().stdin(File::open(sheet)?).stdout(Stdio::null()).stderr(Stdio::null());
    let child = unsafe { command.pre_exec(move || bound(stack)) }.spawn()?;
    let (mut status, mut usage) = (0, Usage::default());
    if unsafe { wait4(child.id() as i32, &mut status, 0, &mut usage) } < 0 {
        return Err(io::Error::last_os_error());
    }
    Ok((status, usage))
}

fn main() {
    for line in io::stdin().lock().lines().map_while(Result::ok) {
        let words: Vec<&str> = line.split('\t').collect();
        let (status, usage) = start(words[0].parse().expect("a size"), words[1], words[2])
            .unwrap_or((-1, Usage::default()));
        let time: i64 = usage.times.iter().map(|t| t[0] * 1_000_000 + t[1]).sum();
        println!("{status} {time} {}", usage.peak);
    }
}
