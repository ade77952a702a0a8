//! An independent second form of the machine of 01, written from its rules alone, for comparison with
//! the proved one.
//!
//!     twin          a schedule from standard input, its listing to standard output
//!     twin --many   many schedules, each behind its length (four bytes, low byte first), to as many
//!                   listings, each behind its length; then, to standard error, a line for each step
//!                   and each way it came out: step, way, how often

mod listing;
mod machine;
mod schedule;
mod steps;

use std::io::{self, Read, Write};

fn main() -> io::Result<()> {
    let arguments: Vec<String> = std::env::args().skip(1).collect();
    match arguments.iter().map(String::as_str).collect::<Vec<_>>()[..] {
        [] => one(),
        ["--many"] => many(),
        _ => {
            eprintln!("twin: no argument, or --many");
            std::process::exit(2);
        }
    }
}

fn one() -> io::Result<()> {
    let mut bytes = Vec::new();
    io::stdin().lock().take(listing::COUNTED as u64).read_to_end(&mut bytes)?;
    let (text, _) = listing::listing(&bytes);
    io::stdout().lock().write_all(&text)
}

fn many() -> io::Result<()> {
    let mut bytes = Vec::new();
    io::stdin().lock().read_to_end(&mut bytes)?;
    let mut out = io::stdout().lock();
    let mut total = steps::Seen::default();
    let mut rest = &bytes[..];
    while let Some((length, behind)) = rest.split_first_chunk::<4>() {
        let (schedule, after) = behind.split_at(u32::from_le_bytes(*length) as usize);
        let (text, seen) = listing::listing(schedule);
        out.write_all(&(text.len() as u32).to_le_bytes())?;
        out.write_all(&text)?;
        for (sum, ways) in total.0.iter_mut().zip(seen.0) {
            sum[0] += ways[0];
            sum[1] += ways[1];
        }
        rest = after;
    }
    for ((name, first, second), ways) in steps::STEP_NAMES.iter().zip(total.0) {
        eprintln!("{name} {first} {}", ways[0]);
        if !second.is_empty() {
            eprintln!("{name} {second} {}", ways[1]);
        }
    }
    Ok(())
}
