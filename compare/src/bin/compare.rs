//! Compares the proved library with the second implementation and reports which reply numbers were reached and which
//! fields were named at fault.

use sootlark_compare::difference::Difference;
use sootlark_compare::library::{Library, Second};
use sootlark_compare::links::Links;
use sootlark_compare::messages::Messages;
use sootlark_compare::tally::{Named, Tally, Way};
use std::process::ExitCode;
use std::time::Instant;

const USAGE: &str = "usage: compare [--seed N] [--messages M] [--lists L] [--self]

  --seed N      where the random numbers start (default 1)
  --messages M  inputs for reading, fields, elements and writing (default 100000)
  --lists L     lists of calls of the link (default 20000)
  --self        compare the second implementation with itself, to try the program without the proved library";

/// 29 cannot be reached: 27 and the row rules come before it.
const UNREACHABLE: [u64; 1] = [29];

struct Options {
    seed: u64,
    messages: u64,
    lists: u64,
    with_itself: bool,
}

fn main() -> ExitCode {
    let Some(options) = parse(std::env::args().skip(1)) else {
        eprintln!("{USAGE}");
        return ExitCode::from(2);
    };
    let compared = match (options.with_itself, proved()) {
        (true, _) => compare(&Second, &options),
        (false, Some(proved)) => compare(proved.as_ref(), &options),
        (false, None) => {
            eprintln!("compare: this build has no proved library; build with the feature `proved`, or try --self");
            return ExitCode::from(2);
        }
    };
    match compared {
        Ok(true) => {
            let note = if options.with_itself { " (with itself)" } else { "" };
            let Options { messages, lists, .. } = options;
            println!("compare: {messages} inputs, {lists} call lists, 0 differences{note}");
            ExitCode::SUCCESS
        }
        Ok(false) => {
            println!("compare: 0 differences, but what is marked above was not reached: more inputs are needed");
            ExitCode::FAILURE
        }
        Err(Difference(text)) => {
            println!("compare: a difference (proved and second)\n{text}");
            ExitCode::FAILURE
        }
    }
}

#[cfg(feature = "proved")]
fn proved() -> Option<Box<dyn Library>> {
    Some(Box::new(sootlark_compare::proved::Proved))
}

#[cfg(not(feature = "proved"))]
fn proved() -> Option<Box<dyn Library>> {
    None
}

fn parse(mut arguments: impl Iterator<Item = String>) -> Option<Options> {
    let mut options = Options {
        seed: 1,
        messages: 100_000,
        lists: 20_000,
        with_itself: false,
    };
    while let Some(name) = arguments.next() {
        match name.as_str() {
            "--seed" => options.seed = arguments.next()?.parse().ok()?,
            "--messages" => options.messages = arguments.next()?.parse().ok()?,
            "--lists" => options.lists = arguments.next()?.parse().ok()?,
            "--self" => options.with_itself = true,
            _ => return None,
        }
    }
    Some(options)
}

/// Whether every number that can be reached was reached.
fn compare(proved: &dyn Library, options: &Options) -> Result<bool, Difference> {
    println!("seed {}", options.seed);
    let mut messages = Messages::new(proved, &Second, options.seed);
    messages.compare_examples()?;
    println!("003's examples, at every version, cut short at every length and made longer: no difference");
    let start = Instant::now();
    let faults = messages.compare_faults()?;
    report_speed("messages with one fault, each field of each type", faults, start);
    let start = Instant::now();
    for index in 0..options.messages {
        messages.compare_input(index)?;
    }
    report_speed("inputs", options.messages, start);
    let start = Instant::now();
    let mut links = Links::new(proved, &Second, options.seed);
    for index in 0..options.lists {
        links.compare_list(index)?;
    }
    report_speed("call lists", options.lists, start);
    let deeds = &links.deeds;
    println!(
        "in them {} calls, {} sessions opened outside runs, {} records accepted, {} bytes read",
        deeds.calls, deeds.sessions, deeds.records, deeds.bytes_read
    );
    let messages_reached = print_messages(&messages.reading, &messages.writing);
    let fields_reached = print_named(&messages.named);
    let links_reached = print_links(&links.tally);
    Ok(messages_reached && fields_reached && links_reached)
}

fn report_speed(what: &str, count: u64, start: Instant) {
    let seconds = start.elapsed().as_secs_f64();
    println!(
        "{count} {what} in {seconds:.1} s, {:.0} a second",
        count as f64 / seconds
    );
}

/// Replies of the messages' calls, one line for each number.
fn print_messages(reading: &Tally, writing: &Tally) -> bool {
    println!("\nmessage replies\n  no.     reading     writing");
    let mut all = true;
    for number in [0, 1].into_iter().chain(40..=50) {
        let (read, written) = (reading.count(number), writing.count(number));
        let mark = mark(number, read + written);
        all &= mark != MISSED;
        println!("  {number:>3} {read:>11} {written:>11}{mark}");
    }
    all
}

/// The fields that reasons named: a line for each type with the least that one of its fields was named in one of the ways
/// that it can be at fault (44, and 45 where not every value is allowed), and a line for each that never was. Type 0 is what
/// stands before the payload.
fn print_named(named: &Named) -> bool {
    println!("\nfields named at fault\n  type   ways       least         sum");
    for ways in named.ways.chunk_by(|a, b| a.kind == b.kind) {
        let counts = || ways.iter().map(|way| way.count);
        let (least, sum) = (counts().min().unwrap_or(0), counts().sum::<u64>());
        println!("  {:>4} {:>6} {least:>11} {sum:>11}", ways[0].kind, ways.len());
    }
    let missed: Vec<&Way> = named.ways.iter().filter(|way| way.count == 0).collect();
    for Way { kind, word, number, .. } in &missed {
        println!("  {kind:>4} {word} {number}{MISSED}");
    }
    missed.is_empty()
}

/// Replies of the link's calls, one line for each number.
fn print_links(tally: &Tally) -> bool {
    println!("\nlink replies\n  no.       calls");
    let mut all = true;
    for number in (0..=14).chain(20..=30) {
        let mark = mark(number, tally.count(number));
        all &= mark != MISSED;
        println!("  {number:>3} {:>11}{mark}", tally.count(number));
    }
    println!();
    all
}

const MISSED: &str = "  <- not reached";

fn mark(number: u64, count: u64) -> &'static str {
    match (UNREACHABLE.contains(&number), count) {
        (true, _) => "  (cannot be reached)",
        (false, 0) => MISSED,
        _ => "",
    }
}
