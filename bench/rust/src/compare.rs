//! The answers of another program to random jobs, against those found here.

use crate::job::{Reply, answer};
use crate::random_jobs::random_job;
use std::fmt;
use std::io::{self, Write};
use std::process::{Command, Output, Stdio};
use std::sync::Mutex;
use std::sync::atomic::{AtomicBool, AtomicU64, Ordering};
use std::thread;
use std::time::{Duration, Instant};

/// How many processes run at a time.
const PROCESSES: usize = 2;

/// What was compared.
#[derive(Default)]
pub struct Totals {
    jobs: u64,
    records: usize,
    replies: usize,
    /// How often each number was refused.
    refusals: [usize; 20],
}

impl fmt::Display for Totals {
    fn fmt(&self, f: &mut fmt::Formatter<'_>) -> fmt::Result {
        writeln!(
            f,
            "{} jobs, {} records, {} replies: all agree",
            self.jobs, self.records, self.replies
        )?;
        write!(f, "refusals:")?;
        for number in (1..=13).chain(16..=19) {
            write!(f, " {number}: {}", self.refusals[number])?;
        }
        writeln!(f)
    }
}

/// A job that the program answers otherwise, or not at all.
pub struct Difference {
    pub seed: u64,
    pub job: Vec<u8>,
    pub told: String,
}

/// Compares `count` jobs from the first seed on, until the time is over.
pub fn compare(
    program: &str,
    first_seed: u64,
    count: u64,
    time: Duration,
) -> Result<Totals, Difference> {
    let start = Instant::now();
    let taken = AtomicU64::new(0);
    let found = AtomicBool::new(false);
    let totals = Mutex::new(Totals::default());

    let work = || {
        while !found.load(Ordering::Relaxed) && start.elapsed() < time {
            let number = taken.fetch_add(1, Ordering::Relaxed);
            if number >= count {
                break;
            }
            let compared = compare_one(program, first_seed.wrapping_add(number), &totals);
            if compared.is_err() {
                found.store(true, Ordering::Relaxed);
                return compared;
            }
        }
        Ok(())
    };
    thread::scope(|scope| {
        let workers = [(); PROCESSES].map(|()| scope.spawn(work));
        workers
            .into_iter()
            .try_for_each(|worker| worker.join().expect("no worker panics"))
    })?;
    Ok(totals.into_inner().expect("no worker panics"))
}

fn compare_one(program: &str, seed: u64, totals: &Mutex<Totals>) -> Result<(), Difference> {
    let job = random_job(seed);
    let answers = answer(&job);
    let want = answers.to_string();
    let told = match run(program, &job) {
        Ok(output) => difference(&output, &want),
        Err(fault) => Some(format!("{program} cannot be run: {fault}")),
    };
    if let Some(told) = told {
        return Err(Difference { seed, job, told });
    }
    let mut totals = totals.lock().expect("no worker panics");
    totals.jobs += 1;
    totals.records += answers.records;
    totals.replies += answers.replies.len();
    for reply in &answers.replies {
        if let Reply::Refused { fault, .. } = reply {
            totals.refusals[fault.number as usize] += 1;
        }
    }
    Ok(())
}

/// Runs the program with the job on its standard input.
fn run(program: &str, job: &[u8]) -> io::Result<Output> {
    let mut child = Command::new(program)
        .stdin(Stdio::piped())
        .stdout(Stdio::piped())
        .spawn()?;
    let mut stdin = child.stdin.take().expect("the input is piped");
    thread::scope(|scope| {
        let writer = scope.spawn(move || stdin.write_all(job));
        let output = child.wait_with_output()?;
        match writer.join().expect("the writer does not panic") {
            // A program need not read all of a job that is too long.
            Err(fault) if fault.kind() != io::ErrorKind::BrokenPipe => Err(fault),
            _ => Ok(output),
        }
    })
}

/// Tells how the output differs from what is wanted.
fn difference(output: &Output, want: &str) -> Option<String> {
    if output.status.success() && output.stdout == want.as_bytes() {
        return None;
    }
    let got = String::from_utf8_lossy(&output.stdout);
    let mut told = format!("the program ended with {}\n", output.status);
    let mut got_lines = got.split_inclusive('\n');
    let mut want_lines = want.split_inclusive('\n');
    for line in 1.. {
        let (got, want) = (got_lines.next(), want_lines.next());
        if got != want {
            told += &format!("line {line} is {got:?}, expected {want:?}\n");
            break;
        }
        if got.is_none() {
            break;
        }
    }
    Some(told)
}
