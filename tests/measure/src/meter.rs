//! The cost of a call: instructions where Callgrind can count them, else time.

use crate::drawings::Named;
use crate::process;
use crate::subject::{Job, Subject};
use std::env;
use std::process::Command;
use std::sync::mpsc;
use std::thread;
use std::time::{Duration, Instant};

/// A call that takes longer than this is taken to have no end.
const LIMIT: Duration = Duration::from_secs(120);

/// A time is the least of so many.
const TIMES: usize = 25;

/// Callgrind runs a program for this processor. It cannot run an x86-64 program that is itself in
/// an emulator: there only times are left, which are good for ratios alone.
#[derive(Clone, Copy, Debug, PartialEq, Eq)]
pub enum Meter {
    Instructions,
    Nanoseconds,
}

impl Meter {
    /// Instructions, if a trial count succeeds.
    pub fn find(trial: &Named) -> Meter {
        let (_, subject) = crate::subject::SUBJECTS[0];
        match instructions(subject, trial) {
            Ok(_) => Meter::Instructions,
            Err(_) => Meter::Nanoseconds,
        }
    }

    pub fn unit(self) -> &'static str {
        match self {
            Meter::Instructions => "instructions",
            Meter::Nanoseconds => "nanoseconds",
        }
    }

    /// What one call of the subject costs on a drawing.
    pub fn cost(self, subject: Subject, drawing: &Named) -> Result<u64, String> {
        match self {
            Meter::Instructions => instructions(subject, drawing),
            Meter::Nanoseconds => Ok(nanoseconds(&[subject], drawing)?[0]),
        }
    }
}

/// This program makes the one call as a child of its own, and Callgrind counts in it alone.
fn instructions(subject: Subject, drawing: &Named) -> Result<u64, String> {
    let program = env::current_exe().map_err(|error| error.to_string())?;
    let mut command = Command::new("valgrind");
    command.args(["--tool=callgrind", "--callgrind-out-file=/dev/null"]);
    command.args(["--collect-atstart=no", "--toggle-collect=measured_call"]);
    command.arg(program).args(["call", subject.name(), &drawing.name]);
    collected(&process::run(&mut command, LIMIT)?)
}

/// The count in what Callgrind prints at its end. A count of 0 means that it missed the function.
fn collected(printed: &str) -> Result<u64, String> {
    let after = printed.split("Collected : ").nth(1);
    let number = after.and_then(|text| text.split_whitespace().next()?.parse().ok());
    match number {
        Some(count) if count > 0 => Ok(count),
        _ => Err(format!("Callgrind counted nothing:\n{printed}")),
    }
}

/// The least times of these subjects. They are called by turns, so that what else the machine does
/// falls on all of them.
pub fn nanoseconds(subjects: &[Subject], drawing: &Named) -> Result<Vec<u64>, String> {
    let job = |&subject: &Subject| Job::new(subject, &drawing.bytes);
    let mut jobs: Vec<Job> = subjects.iter().map(job).collect();
    let (sender, receiver) = mpsc::channel();
    // Not joined: where a call has no end, neither has the thread.
    thread::spawn(move || {
        for _ in 0..TIMES {
            for (at, job) in jobs.iter_mut().enumerate() {
                let start = Instant::now();
                job.call();
                // Nobody listens after the limit.
                let _ = sender.send((at, start.elapsed().as_nanos() as u64));
            }
        }
    });
    let mut least = vec![u64::MAX; subjects.len()];
    for _ in 0..TIMES * subjects.len() {
        let ended = receiver.recv_timeout(LIMIT);
        let (at, time) = ended.map_err(|_| format!("{}: no end", drawing.name))?;
        least[at] = least[at].min(time);
    }
    Ok(least)
}

#[cfg(test)]
mod tests {
    use super::*;

    #[test]
    fn the_count_is_read() {
        let printed = "==7== Events    : Ir\n==7== Collected : 1234\n==7== \n";
        assert_eq!(collected(printed), Ok(1234));
        assert!(collected("==7== Collected : 0\n").is_err());
        assert!(collected("valgrind: not for this machine\n").is_err());
    }
}
