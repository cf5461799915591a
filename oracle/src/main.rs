//! Holds the port against source 000, case by case. `--long` goes on with new seeds, `--list` writes the fixed lists of answers instead, and `--speed` measures both sides.

include!(concat!(env!("OUT_DIR"), "/source.rs"));

mod analysis;
mod assign;
mod bins;
mod blocks;
mod chain;
mod code;
mod codes;
mod coverage;
mod draw;
mod list;
mod list_blocks;
mod list_wire;
mod plan;
mod port;
mod quant;
mod read;
mod recon;
mod refusals;
mod report;
mod runs;
mod scan;
mod second;
mod smooth;
mod speed;
mod speed_calls;
mod speed_pictures;
mod speed_table;
mod update;
mod write;

use report::Report;
use std::io;
use std::path::Path;
use std::process::ExitCode;
use std::time::Duration;

const USAGE: &str = "usage: oracle/run [--seed N] [--count N] [--only NAME] [--long MINUTES] | --list | --speed [--only NAME]";

/// What a run is asked for.
#[derive(Default)]
struct Asked {
    seed: u64,
    count: Option<usize>,
    only: Option<String>,
    long: Option<Duration>,
    list: bool,
    speed: bool,
}

/// None where the words are not those of the usage.
fn asked(words: impl Iterator<Item = String>) -> Option<Asked> {
    let mut asked = Asked { seed: 1, ..Asked::default() };
    let mut words = words.peekable();
    while let Some(word) = words.next() {
        match word.as_str() {
            "--seed" => asked.seed = words.next()?.parse().ok()?,
            "--count" => asked.count = Some(words.next()?.parse().ok()?),
            "--only" => asked.only = Some(words.next()?),
            "--long" => {
                let minutes: u64 = words.next_if(|word| !word.starts_with("--")).map_or(Some(60), |n| n.parse().ok())?;
                asked.long = Some(Duration::from_secs(60 * minutes));
            }
            "--list" => asked.list = true,
            "--speed" => asked.speed = true,
            _ => return None,
        }
    }
    Some(asked)
}

/// Writes the fixed lists.
fn list() -> io::Result<()> {
    let crates = Path::new(concat!(env!("CARGO_MANIFEST_DIR"), "/../crates"));
    list::write(&crates.join("answers"))?;
    list_blocks::write(&crates.join("answers_block"))?;
    list_wire::write(&crates.join("answers_wire"))
}

/// Compares all that is asked for.
fn compare(asked: Asked) -> bool {
    let mut report = Report::new(asked.seed, asked.count, asked.only, asked.long);
    while report.goes_on() {
        scan::compare(&mut report);
        quant::compare(&mut report);
        codes::compare(&mut report);
        update::compare(&mut report);
        analysis::compare(&mut report);
        assign::compare(&mut report);
        chain::compare(&mut report);
        smooth::compare(&mut report);
        plan::compare(&mut report);
        recon::compare(&mut report);
        write::compare(&mut report);
        read::compare(&mut report);
    }
    report.finish()
}

fn main() -> ExitCode {
    let Some(asked) = asked(std::env::args().skip(1)) else {
        eprintln!("{USAGE}");
        return ExitCode::from(2);
    };
    print!("{}", include_str!(concat!(env!("OUT_DIR"), "/difference.txt")));
    let fine = if asked.list {
        list().map_err(|why| eprintln!("the list is not written: {why}")).is_ok()
    } else if asked.speed {
        speed::measure(asked.only.as_deref())
    } else {
        compare(asked)
    };
    ExitCode::from(u8::from(!fine))
}
