//! Runs a job from plain Rust and prints its answers: the job of the file that is given, or a small one.
//!
//! `run.sh` builds and runs it. It needs rustc and no package.

use std::process::ExitCode;

/// The C call, as `include/dagrelk.h` has it.
mod ffi {
    #[repr(C)]
    pub struct Outcome {
        pub lines: usize,
        pub bytes: usize,
        pub stop: u32,
    }

    unsafe extern "C" {
        pub fn dagrelk_run(job: *const u8, job_len: usize, out: *mut u8, out_len: usize) -> Outcome;
    }
}

/// Why a run did not answer every line.
#[derive(Clone, Copy, Debug, PartialEq, Eq)]
enum Stop {
    /// The answer of the next line did not fit.
    NoRoom,
    /// There was no memory for the net.
    NoMemory,
}

/// What a run answered: how many lines, the answers, and why it stopped before the end, where it did.
struct Ran<'a> {
    lines: usize,
    answers: &'a [u8],
    stop: Option<Stop>,
}

/// Runs the job and writes its answers to `out`. Safe for any two slices: a slice is never null, a `&mut` overlaps nothing, and the
/// call reads and writes within the two lengths.
fn run<'a>(job: &[u8], out: &'a mut [u8]) -> Ran<'a> {
    let ran = unsafe { ffi::dagrelk_run(job.as_ptr(), job.len(), out.as_mut_ptr(), out.len()) };
    let stop = match ran.stop {
        0 => None,
        1 => Some(Stop::NoRoom),
        2 => Some(Stop::NoMemory),
        other => unreachable!("stop {other}"),
    };
    Ran {
        lines: ran.lines,
        answers: &out[..ran.bytes],
        stop,
    }
}

/// Room that is always enough: 48 bytes for each line of the job, and 32 KiB for each `T`.
fn room(job: &[u8]) -> usize {
    job.split(|byte| *byte == b'\n')
        .map(|line| if line == b"T" { 32_768 } else { 48 })
        .sum()
}

const JOB: &[u8] = b"W,plane\nP,0,0,0\nP,4,3,0\nP,5,1,0\nA,0,1\nE,0,1\nE,0,2\nE,1,2\nJ\nS\nT\n";

const WANTED: &[u8] = b"ok,1,0\nok,2,0\nok,3,1\nok,4,2\nok,5,0\nok,6,7\nok,7,6\nno,8,n,9,0\nok,9,13\nok,10,5\n\
    N,0,0,0,0,0,0\nN,1,3,4,3,0,2\nN,2,3,5,1,0,1\nN,3,0,4,1,0,5\nok,11,4\n";

/// Runs the job, prints its answers, and says whether every line was answered and, where it is known what is wanted, as wanted.
fn show(job: &[u8], wanted: Option<&[u8]>) -> bool {
    let mut out = vec![0; room(job)];
    let ran = run(job, &mut out);
    print!("{}", String::from_utf8_lossy(ran.answers));
    println!("{} lines answered, {} bytes, stop: {:?}", ran.lines, ran.answers.len(), ran.stop);
    ran.stop.is_none() && wanted.is_none_or(|wanted| wanted == ran.answers)
}

/// An empty job, an empty output, and an output that ends within an answer.
fn ends() -> bool {
    let nothing = run(b"", &mut []);
    let no_room = run(JOB, &mut []);
    let mut out = [b'#'; 20];
    let ran = run(JOB, &mut out);
    let some = (ran.lines, ran.answers.len(), ran.stop);
    (nothing.lines, nothing.stop) == (0, None)
        && (no_room.lines, no_room.stop) == (0, Some(Stop::NoRoom))
        && some == (2, 14, Some(Stop::NoRoom))
        && out == *b"ok,1,0\nok,2,0\n######"
}

fn main() -> ExitCode {
    let done = match std::env::args_os().nth(1) {
        Some(path) => match std::fs::read(&path) {
            Ok(job) => show(&job, None),
            Err(error) => {
                eprintln!("{}: {error}", path.display());
                false
            }
        },
        None => show(JOB, Some(WANTED)) && ends(),
    };
    if done { ExitCode::SUCCESS } else { ExitCode::FAILURE }
}
