//! A packet-filter rule table in plain Rust: the commands.

mod bench;
mod bits;
mod bridge;
mod choice;
mod compare;
mod fault;
mod fields;
mod job;
mod kind;
mod lists;
mod random;
mod random_jobs;
mod routed;
mod table;

use lists::{List, Mix, PACKETS};
use std::error::Error;
use std::io::{self, Read, Write};
use std::process::ExitCode;
use std::time::Duration;

const USAGE: &str = "usage:
  plain_table lists LINES full|open|mixed|uneven AREA SEED [PACKETS] > FILE
                                                             writes a rule list and packets, 4,096 if not told
  plain_table bench < FILE                                   measures them
  plain_table answer < JOB                                   carries out a job
  plain_table jobs PROGRAM FIRST_SEED COUNT [SECONDS]        compares a program's answers to random jobs
  plain_table job SEED > FILE                                writes the random job of a seed
";

fn main() -> ExitCode {
    let arguments: Vec<String> = std::env::args().skip(1).collect();
    let arguments: Vec<&str> = arguments.iter().map(String::as_str).collect();
    match command(&arguments) {
        Ok(code) => code,
        Err(fault) => {
            eprintln!("plain_table: {fault}");
            ExitCode::FAILURE
        }
    }
}

fn command(arguments: &[&str]) -> Result<ExitCode, Box<dyn Error>> {
    match *arguments {
        ["lists", lines, mix, area, seed] => {
            write_list(lines, mix, area, seed, PACKETS)?;
        }
        ["lists", lines, mix, area, seed, packets] => {
            write_list(lines, mix, area, seed, packets.parse()?)?;
        }
        ["bench"] => {
            let list = List::from_bytes(&read()?).ok_or("the file holds no list")?;
            bench::bench(&list).map_err(|fault| format!("refused {fault}"))?;
        }
        ["answer"] => write(job::answer(&read()?).to_string().as_bytes())?,
        ["jobs", program, first_seed, count] => {
            return jobs(program, first_seed.parse()?, count.parse()?, 60);
        }
        ["jobs", program, first_seed, count, seconds] => {
            let seconds = seconds.parse()?;
            return jobs(program, first_seed.parse()?, count.parse()?, seconds);
        }
        ["job", seed] => write(&random_jobs::random_job(seed.parse()?))?,
        _ => {
            eprint!("{USAGE}");
            return Ok(ExitCode::from(2));
        }
    }
    Ok(ExitCode::SUCCESS)
}

fn write_list(
    lines: &str,
    mix: &str,
    area: &str,
    seed: &str,
    packets: usize,
) -> Result<(), Box<dyn Error>> {
    let mix = Mix::named(mix).ok_or("there is no such mix")?;
    let list = List::random(lines.parse()?, mix, area.parse()?, seed.parse()?, packets);
    Ok(write(&list.to_bytes())?)
}

fn jobs(program: &str, first: u64, count: u64, seconds: u64) -> Result<ExitCode, Box<dyn Error>> {
    match compare::compare(program, first, count, Duration::from_secs(seconds)) {
        Ok(totals) => {
            print!("{totals}");
            Ok(ExitCode::SUCCESS)
        }
        Err(difference) => {
            let file = format!("job-{}.bin", difference.seed);
            std::fs::write(&file, &difference.job)?;
            print!("seed {}, in {file}: {}", difference.seed, difference.told);
            Ok(ExitCode::FAILURE)
        }
    }
}

fn read() -> io::Result<Vec<u8>> {
    let mut bytes = Vec::new();
    io::stdin().lock().read_to_end(&mut bytes)?;
    Ok(bytes)
}

fn write(bytes: &[u8]) -> io::Result<()> {
    io::stdout().lock().write_all(bytes)
}
