//! The listing, after 01, "Schedule bytes and listing".

use std::io::Write;

use crate::machine::{Answer, Machine, Outcome};
use crate::schedule::{Reader, Refusal};
use crate::steps::Seen;

/// "Of longer input only the first 65,536 bytes count."
pub const COUNTED: usize = 65_536;

/// The listing of a schedule, and how often its steps came out in each way.
pub fn listing(bytes: &[u8]) -> (Vec<u8>, Seen) {
    let mut out = Vec::new();
    let mut reader = Reader::new(&bytes[..bytes.len().min(COUNTED)]);
    let (threads, nodes) = match reader.setup() {
        Ok(numbers) => numbers,
        // "A refusal at set-up prints only `refused` and the number."
        Err(refusal) => {
            put(&mut out, format_args!("refused {refusal}\n"));
            return (out, Seen::default());
        }
    };
    put(&mut out, format_args!("bq {threads} {nodes}\n"));
    let mut machine = Machine::fresh(threads, nodes);
    for place in 0.. {
        match reader.entry() {
            Ok(None) => break,
            Ok(Some(entry)) => {
                let (word, value, steps) = match machine.enter(entry) {
                    Ok((answer, steps)) => {
                        let (word, value) = word_and_value(answer);
                        (word, value, steps)
                    }
                    // "Refusals 1 to 8 let it go on."
                    Err(refusal) => refused(refusal),
                };
                line(&mut out, place, word, value, steps, machine.depth());
            }
            // "10 to 12 get such a line too and end the entries, then the `queue` line follows."
            Err(refusal) => {
                let (word, value, steps) = refused(refusal);
                line(&mut out, place, word, value, steps, machine.depth());
                break;
            }
        }
    }
    put(&mut out, format_args!("queue"));
    for item in machine.contents() {
        put(&mut out, format_args!(" {item}"));
    }
    put(&mut out, format_args!("\n"));
    (out, machine.seen)
}

/// "A refused entry has the word `refused`, the refusal number as value, 0 steps ...".
fn refused(refusal: Refusal) -> (&'static str, u32, u32) {
    ("refused", refusal, 0)
}

/// "Answer word ..., value (0 where none)."
fn word_and_value(answer: Answer) -> (&'static str, u32) {
    match answer {
        Answer::Started => ("started", 0),
        Answer::Future(f) => ("future", f as u32),
        Answer::More => ("more", 0),
        Answer::Ended(Outcome::Ok) => ("ok", 0),
        Answer::Ended(Outcome::Item(v)) => ("item", v),
        Answer::Ended(Outcome::Empty) => ("empty", 0),
    }
}

/// "One line per entry with place from 0, answer word, value, steps taken, depth after the entry."
fn line(out: &mut Vec<u8>, place: usize, word: &str, value: u32, steps: u32, depth: u32) {
    put(out, format_args!("{place} {word} {value} {steps} {depth}\n"));
}

fn put(out: &mut Vec<u8>, text: std::fmt::Arguments) {
    out.write_fmt(text).expect("a vector takes every byte");
}
