//! Measures the proved library and the second implementation on the same inputs, in turns in one process.

use sootlark_compare::lent::{Lent, Scale, KINDS};
use sootlark_compare::library::{Ask, Lend, Library, LinkCall, FIELD_NAME};
use sootlark_compare::random::Random;
use sootlark_compare::refused::{refused_of_all_types, Refused};
use sootlark_compare::second::explain::explain;
use sootlark_compare::second::link::{make, Endpoint, Row, Status, OPEN, QUEUE, REQUEST, ROWS, STORE, TRANSMIT};
use sootlark_compare::second::message::{self, Kind, HEADER, MOST_PAYLOAD};
use sootlark_compare::second::mirror::numbers_of;
use sootlark_compare::second::role;
use sootlark_compare::second::write::write;
use std::hint::black_box;
use std::process::ExitCode;
use std::time::{Duration, Instant};

/// Without the proved library the program can be tried with the second one in its place.
#[cfg(not(feature = "proved"))]
use sootlark_compare::library::Second as Proved;
#[cfg(feature = "proved")]
use sootlark_compare::proved::Proved;

const ABOUT: &str = "\
Each line is one call on one input. 'proved' is the proved library through its C boundary (an endpoint goes in and
out as 163 numbers); 'second' is the second implementation, called as Rust, with its own endpoint; 'copy' copies the
input's bytes with copy_from_slice and is the limit of the machine. Times are medians in nanoseconds; the three take
turns in every round. 'ratio' is proved / second. A call of the link that changes the endpoint starts from a copy of
it, whose making is measured in both.";

/// How long one sample of one candidate takes at least: more than 10,000 calls if they take up to 20 nanoseconds.
const SAMPLE: Duration = Duration::from_micros(200);
const LARGEST: usize = HEADER + MOST_PAYLOAD;

struct Bench {
    rounds: usize,
    random: Random,
}

/// Medians, in nanoseconds.
struct Times {
    proved: f64,
    second: f64,
    copy: f64,
}

fn main() -> ExitCode {
    let arguments: Vec<String> = std::env::args().skip(1).collect();
    let rounds = match arguments.as_slice() {
        [] => Some(101),
        [name, rounds] if name == "--rounds" => rounds.parse().ok().filter(|&rounds| rounds > 0),
        _ => None,
    };
    let Some(rounds) = rounds else {
        eprintln!("usage: bench [--rounds N]    (default 101)");
        return ExitCode::from(2);
    };
    if !cfg!(feature = "proved") {
        println!("NO PROVED LIBRARY IN THIS BUILD: the second implementation stands in its place.\n");
    }
    println!("{ABOUT}\n");
    let mut bench = Bench {
        rounds,
        random: Random::new(1, 0),
    };
    bench.tables();
    bench.plots();
    ExitCode::SUCCESS
}

impl Bench {
    fn tables(&mut self) {
        header("reading a message");
        for kind in KINDS {
            for (size, lent) in self.sizes(kind) {
                self.reading(&format!("{} {size}", kind.number()), &lent);
            }
        }
        header("the last element of a list in a message of 65,536 bytes");
        let mut deepest = self.filled(Kind::DiscoveryRequest, HEADER + 56, 0);
        deepest.lists[0] = vec![0; (MOST_PAYLOAD - 56) / 8];
        self.last_element("7300 services, empty names", &deepest, role::SERVICES, role::NAME);
        for (kind, list, field) in [
            (Kind::ConnectRequest, role::PROTOCOL_VERSIONS, role::OFFERED),
            (Kind::DiscoveryRequest, role::QUEUES, role::NAME),
            (Kind::TopologyUpdate, role::DOMAINS, role::NAME),
            (Kind::DiscoveryReply, role::SERVICES, role::CATEGORY),
            (Kind::DequeueReply, role::MESSAGES, role::DATA),
        ] {
            let lent = self.filled(kind, LARGEST, 8);
            self.last_element(&format!("{} list {list}", kind.number()), &lent, list, field);
        }
        self.explaining();
        header("writing a message");
        for kind in KINDS {
            for (size, lent) in self.sizes(kind) {
                self.writing(&format!("{} {size}", kind.number()), &lent);
            }
        }
        header("the link");
        self.run("run, TRANSMITs of 1 byte", &transmits(1, LARGEST));
        self.run("run, TRANSMITs of 64 bytes", &transmits(64, LARGEST));
        self.run("run, TRANSMITs of 1,024 bytes", &transmits(QUEUE, LARGEST));
        self.run("run, REQUESTs", &requests(LARGEST));
        self.run("run, one REQUEST", &requests(7));
        self.run_openings();
        self.receive_transmit();
        self.read_full_queue();
        self.transmit();
        self.row_rules();
    }

    /// A small message of the type, and the largest it can have, if it differs.
    fn sizes(&mut self, kind: Kind) -> Vec<(&'static str, Lent)> {
        let scale = Scale {
            elements: (2, 2),
            string: (8, 8),
        };
        let small = Lent::random(&mut self.random, kind, scale);
        match kind {
            Kind::DisconnectRequest | Kind::DisconnectReply => vec![("small", small)],
            Kind::RollbackRequest | Kind::RollbackReply => {
                vec![
                    ("small", xid_of(small, 16)),
                    ("largest", xid_of(self.filled(kind, LARGEST, 8), 64)),
                ]
            }
            _ => vec![("small", small), ("largest", self.filled(kind, LARGEST, 8))],
        }
    }

    /// A message of exactly `whole` bytes, made of elements with strings of `string` bytes, if the type has lists.
    fn filled(&mut self, kind: Kind, whole: usize, string: u64) -> Lent {
        let element = match kind {
            Kind::ConnectRequest => 8,
            Kind::DiscoveryRequest => 2 * (8 + string),
            Kind::TopologyUpdate => 24 + string,
            Kind::DiscoveryReply => 3 * (8 + string) + 36,
            Kind::DequeueReply => 4 * (8 + string) + 40,
            _ => whole as u64,
        };
        let count = (whole as u64).saturating_sub(120) / element;
        let scale = Scale {
            elements: (count, count),
            string: (string, string),
        };
        let mut lent = Lent::random(&mut self.random, kind, scale);
        lent.stretch(&mut self.random, whole - HEADER);
        lent
    }

    fn reading(&self, name: &str, lent: &Lent) {
        let message = lent.message().expect("a message");
        print_line(name, message.len(), &self.time_reading(lent.kind, &message));
    }

    fn time_reading(&self, kind: Kind, message: &[u8]) -> Times {
        let version = *kind.versions().end();
        let mut copied = vec![0; message.len()];
        self.measure(
            || Proved.ask(black_box(message), version, Ask::Read),
            || message::read(black_box(message), version),
            || copy(&mut copied, message),
        )
    }

    fn last_element(&self, name: &str, lent: &Lent, list: u64, field: u64) {
        let message = lent.message().expect("a message");
        let version = *lent.kind.versions().end();
        let count = message::read(&message, version).expect("accepted").count(list);
        let n = count.expect("a list") - 1;
        let mut copied = vec![0; message.len()];
        let is_part = field != role::OFFERED;
        let asked = match is_part {
            true => Ask::ElementPart { list, n, role: field },
            false => Ask::ElementField { list, n, role: field },
        };
        let times = self.measure(
            || Proved.ask(black_box(&message), version, asked),
            || {
                let element = message::read(black_box(&message), version)
                    .ok()?
                    .element(list, n)
                    .ok()?;
                match is_part {
                    true => element.part(field).ok().map(|part| part.at as u64),
                    false => element.number(field).ok(),
                }
            },
            || copy(&mut copied, &message),
        );
        print_line(&format!("{name}, n = {n}"), message.len(), &times);
    }

    /// Refused messages of 65,536 bytes: why, beside their reading.
    fn explaining(&mut self) {
        println!("\nwhy a message of 65,536 bytes is refused, beside its reading ('ratio' is explain / read)");
        println!(
            "  {:<50} {:>3} {:>11} {:>11} {:>6} {:>11} {:>11} {:>6}",
            "", "no.", "proved read", "explain", "ratio", "second read", "explain", "ratio"
        );
        let rows = self.refused_late().into_iter().chain(refused_of_all_types());
        let ratios = rows.map(|row| (self.explain(&row), row.name));
        let worst = ratios.max_by(|a, b| a.0.total_cmp(&b.0));
        let (ratio, name) = worst.expect("a row");
        println!("  the proved library's worst ratio: {ratio:.2} ({name})");
    }

    /// Messages whose fault is in their last field.
    fn refused_late(&mut self) -> Vec<Refused> {
        let rows = [
            (Kind::DiscoveryRequest, "cut in its last element"),
            (Kind::TopologyUpdate, "cut in its last element"),
            (Kind::DiscoveryReply, "cut in its last element"),
            (Kind::DequeueReply, "cut in its last element"),
            (Kind::ConnectRequest, "with a count one too large"),
            (Kind::ServiceReply, "whose buffer data runs past"),
        ];
        let row = |(kind, what)| {
            let message = self.filled(kind, LARGEST, 8).message().expect("a message");
            let message = match kind {
                Kind::ConnectRequest => one_more_version(message),
                _ => shortened(message),
            };
            Refused::new(kind, what, message, 44)
        };
        rows.map(row).into()
    }

    /// Reading and explaining one refused message in both libraries, in turns. The proved library's ratio.
    fn explain(&self, row: &Refused) -> f64 {
        let (message, version) = (row.bytes.as_slice(), row.version);
        let mut field = [0; FIELD_NAME];
        assert_eq!(message.len(), LARGEST, "{}", row.name);
        let numbers = [
            explain(message, version).number,
            Proved.explain(message, version, &mut field).number,
            Proved.ask(message, version, Ask::Read).number,
        ];
        assert_eq!(numbers, [row.number; 3], "{}", row.name);
        // Of the proved library only the number is kept, so that the copying of results is not measured with such short
        // calls.
        let times = self.in_turns([
            &mut timed(|| Proved.ask(message, black_box(version), Ask::Read).number),
            &mut timed(|| Proved.explain(message, black_box(version), &mut field).number),
            &mut timed(|| message::read(black_box(message), version)),
            &mut timed(|| explain(black_box(message), version)),
        ]);
        let (ratio, second) = (times[1] / times[0], times[3] / times[2]);
        println!(
            "  {:<50} {:>3} {:>11.1} {:>11.1} {ratio:>6.2} {:>11.1} {:>11.1} {second:>6.2}",
            row.name, row.number, times[0], times[1], times[2], times[3]
        );
        ratio
    }

    fn writing(&self, name: &str, lent: &Lent) {
        let message = lent.message().expect("a message");
        let version = *lent.kind.versions().end();
        let mut outs = [(); 3].map(|()| vec![0; message.len()]);
        let [proved, second, copied] = &mut outs;
        let (head, body) = (lent.head(), lent.body());
        let times = self.measure(
            || Proved.write(black_box(proved), version, head, black_box(&body)),
            || write(black_box(second), version, head, black_box(&body)),
            || copy(copied, &message),
        );
        print_line(name, message.len(), &times);
    }

    fn run(&self, name: &str, stream: &[u8]) {
        print_line(name, stream.len(), &self.time_run(stream, &open_endpoint()));
    }

    fn time_run(&self, stream: &[u8], start: &Endpoint) -> Times {
        let numbers = numbers_of(start);
        let mut stores = [(); 2].map(|()| vec![0; STORE]);
        let mut outs = [(); 2].map(|()| vec![0; stream.len()]);
        let [proved_store, second_store] = &mut stores;
        let [proved_out, second_out] = &mut outs;
        let mut copied = vec![0; stream.len()];
        let call = LinkCall::Run {
            n: usize::MAX,
            bytes: stream,
        };
        self.measure(
            || {
                let mut numbers = *black_box(&numbers);
                let lend = Lend {
                    numbers: &mut numbers,
                    store: proved_store,
                    out: proved_out,
                };
                let reply = Proved.link(black_box(&call), lend);
                assert_eq!(reply.number, 0);
                numbers
            },
            || {
                let mut endpoint = *black_box(start);
                let ran = endpoint.run(second_store, usize::MAX, black_box(stream), second_out);
                assert_eq!(ran.stopped, None);
                endpoint
            },
            || copy(&mut copied, stream),
        )
    }

    /// Each OPEN zeroes 1,024 bytes, each CLOSE is answered.
    fn run_openings(&self) {
        let pairs = [[OPEN, 0x80, 0], [OPEN + 1, 0x80, 0]].concat();
        let stream = pairs.repeat(1000);
        let (fresh, _) = make(false, &mut vec![0; STORE]);
        let times = self.time_run(&stream, &fresh);
        print_line("run, OPEN and CLOSE in turns", stream.len(), &times);
    }

    /// A single receive: the row rules are tested first, which a run does once for all its records.
    fn receive_transmit(&self) {
        let bytes = transmits(64, 71);
        let call = LinkCall::Receive { bytes: &bytes };
        let second = |endpoint: &mut Endpoint, store: &mut [u8], out: &mut [u8]| endpoint.receive(store, &bytes, out);
        self.call(
            "receive, a TRANSMIT of 64 bytes",
            bytes.len(),
            &open_endpoint(),
            &call,
            second,
        );
    }

    fn read_full_queue(&self) {
        let mut start = open_endpoint();
        for row in &mut start.rows {
            row.input = 0;
            row.unread = QUEUE as u32;
        }
        let call = LinkCall::Read { id: 3, session: 4 };
        let second = |endpoint: &mut Endpoint, store: &mut [u8], out: &mut [u8]| endpoint.read(store, 3, 4, out);
        self.call("read of a full queue", QUEUE, &start, &call, second);
        self.call("read of half a full queue", QUEUE / 2, &start, &call, second);
    }

    fn transmit(&self) {
        let data = vec![7; QUEUE];
        let call = LinkCall::Transmit {
            id: 3,
            session: 4,
            data: &data,
        };
        let second =
            |endpoint: &mut Endpoint, store: &mut [u8], out: &mut [u8]| endpoint.transmit(store, 3, 4, &data, out);
        self.call("transmit of 1,024 bytes", QUEUE + 7, &open_endpoint(), &call, second);
    }

    /// An opening of an identifier that is not served: the row rules are tested, then it is refused.
    fn row_rules(&self) {
        let call = LinkCall::Open { id: 16 };
        let second = |endpoint: &mut Endpoint, store: &mut [u8], out: &mut [u8]| {
            let opened = endpoint.open(store, 16, out);
            opened.map(|opened| opened.written)
        };
        self.call(
            "row rules (an opening refused with 5)",
            652,
            &open_endpoint(),
            &call,
            second,
        );
    }

    /// One call of the link with an output of `bytes`.
    fn call<T>(
        &self,
        name: &str,
        bytes: usize,
        start: &Endpoint,
        call: &LinkCall,
        second: impl Fn(&mut Endpoint, &mut [u8], &mut [u8]) -> T,
    ) {
        let numbers = numbers_of(start);
        let mut stores = [(); 2].map(|()| vec![0; STORE]);
        let mut outs = [(); 2].map(|()| vec![0; bytes]);
        let [proved_store, second_store] = &mut stores;
        let [proved_out, second_out] = &mut outs;
        let (source, mut copied) = (vec![1; bytes], vec![0; bytes]);
        let times = self.measure(
            || {
                let mut numbers = *black_box(&numbers);
                let lend = Lend {
                    numbers: &mut numbers,
                    store: proved_store,
                    out: proved_out,
                };
                let reply = Proved.link(black_box(call), lend);
                (reply, numbers)
            },
            || {
                let mut endpoint = *black_box(start);
                let reply = second(&mut endpoint, second_store, second_out);
                (reply, endpoint)
            },
            || copy(&mut copied, &source),
        );
        print_line(name, bytes, &times);
    }

    /// Time against size: bars that double with the size show that it grows linearly.
    fn plots(&mut self) {
        println!("\nTime against size. The bars are linear: twice the size, twice the bar.");
        for (kind, string) in [
            (Kind::TopologyUpdate, 8),
            (Kind::DequeueReply, 8),
            (Kind::DiscoveryRequest, 0),
        ] {
            let points: Vec<(usize, Times)> = doubling()
                .map(|size| {
                    let message = self.filled(kind, size, string).message().expect("a message");
                    (message.len(), self.time_reading(kind, &message))
                })
                .collect();
            plot(&format!("reading a {}", kind.number()), &points);
        }
        let points: Vec<(usize, Times)> = doubling()
            .map(|size| {
                let stream = transmits(1, size);
                (stream.len(), self.time_run(&stream, &open_endpoint()))
            })
            .collect();
        plot("run, TRANSMITs of 1 byte", &points);
        let points: Vec<(usize, Times)> = doubling()
            .take(6)
            .map(|size| {
                let stream = transmits(QUEUE - 7, size);
                (stream.len(), self.time_run(&stream, &open_endpoint()))
            })
            .filter(|(size, _)| *size > 0)
            .collect();
        plot("run, TRANSMITs of 1,017 bytes", &points);
    }

    /// Medians of three candidates that take turns.
    fn measure<A, B, C>(&self, proved: impl FnMut() -> A, second: impl FnMut() -> B, copy: impl FnMut() -> C) -> Times {
        let [proved, second, copy] = self.in_turns([&mut timed(proved), &mut timed(second), &mut timed(copy)]);
        Times { proved, second, copy }
    }

    /// Medians of candidates that take turns, in nanoseconds.
    fn in_turns<const N: usize>(&self, mut candidates: [&mut dyn FnMut(u32) -> Duration; N]) -> [f64; N] {
        let counts = candidates.each_mut().map(|candidate| calls(candidate));
        let mut samples = [(); N].map(|()| Vec::with_capacity(self.rounds));
        for _ in 0..self.rounds {
            for ((candidate, &count), samples) in candidates.iter_mut().zip(&counts).zip(&mut samples) {
                samples.push(candidate(count).as_nanos() as f64 / f64::from(count));
            }
        }
        samples.map(median)
    }
}

/// A plain copy that is not optimised away.
fn copy(to: &mut [u8], from: &[u8]) {
    to.copy_from_slice(black_box(from));
    black_box(to);
}

/// How long so many calls of a candidate take. What it hands back is kept from being optimised away.
fn timed<T>(mut candidate: impl FnMut() -> T) -> impl FnMut(u32) -> Duration {
    move |count| {
        let start = Instant::now();
        for _ in 0..count {
            black_box(candidate());
        }
        start.elapsed()
    }
}

/// How many calls make a sample. One try may be long because it was interrupted, so that three in a row must be.
fn calls(candidate: &mut dyn FnMut(u32) -> Duration) -> u32 {
    let mut count = 1;
    while count < 1 << 20 && (0..3).any(|_| candidate(count) < SAMPLE) {
        count *= 2;
    }
    count
}

fn median(mut samples: Vec<f64>) -> f64 {
    samples.sort_by(f64::total_cmp);
    samples[samples.len() / 2]
}

fn doubling() -> impl Iterator<Item = usize> {
    (10..=16).map(|power| 1 << power)
}

/// The same message with an xid whose two lengths are `length`.
fn xid_of(mut lent: Lent, length: u64) -> Lent {
    lent.numbers[0] = 42;
    lent.numbers[1] = length;
    lent.numbers[2] = length;
    lent.runs[2] = vec![5; 2 * length as usize];
    lent
}

/// The message with a size that is one less, so that its last field runs past.
fn shortened(mut message: Vec<u8>) -> Vec<u8> {
    let size = (message.len() - HEADER - 1) as u64;
    message[24..HEADER].copy_from_slice(&size.to_be_bytes());
    message
}

/// The 7200 with a count of versions that is one too large. The count stands behind execution, id and name.
fn one_more_version(mut message: Vec<u8>) -> Vec<u8> {
    let number = |message: &[u8], at: usize| message[at..at + 8].iter().fold(0, |n, &byte| n << 8 | u64::from(byte));
    let at = HEADER + 40 + number(&message, HEADER + 32) as usize;
    let count = number(&message, at) + 1;
    message[at..at + 8].copy_from_slice(&count.to_be_bytes());
    message
}

/// An endpoint with all rows open, sessions 1 to 32, the whole queue granted and much granted to us.
fn open_endpoint() -> Endpoint {
    let mut endpoint = Endpoint {
        began: false,
        down: false,
        last: ROWS as u32,
        rows: [Row::default(); ROWS],
    };
    for (r, row) in endpoint.rows.iter_mut().enumerate() {
        *row = Row {
            status: Status::Open,
            session: r as u32 + 1,
            input: QUEUE as u32,
            output: 1 << 20,
            unread: 0,
        };
    }
    endpoint
}

fn id_of(row: usize) -> u16 {
    match row {
        0..=15 => row as u16,
        _ => 0x8000 + row as u16 - 16,
    }
}

/// TRANSMITs of `data` bytes, row after row, until the stream or the queues are full.
fn transmits(data: usize, most: usize) -> Vec<u8> {
    let mut stream = Vec::new();
    let mut queued = [0; ROWS];
    for row in (0..ROWS).cycle() {
        if stream.len() + 7 + data > most || queued[row] + data > QUEUE {
            return stream;
        }
        queued[row] += data;
        stream.push(TRANSMIT);
        stream.extend(id_of(row).to_be_bytes());
        stream.extend((data as u32).to_be_bytes());
        stream.resize(stream.len() + data, 9);
    }
    stream
}

/// REQUESTs of 1, row after row.
fn requests(most: usize) -> Vec<u8> {
    let mut stream = Vec::new();
    for row in (0..ROWS).cycle().take(most / 7) {
        stream.push(REQUEST);
        stream.extend(id_of(row).to_be_bytes());
        stream.extend(1u32.to_be_bytes());
    }
    stream
}

fn header(title: &str) {
    println!("\n{title}");
    println!(
        "  {:<40} {:>7} {:>11} {:>11} {:>11} {:>6}",
        "", "bytes", "proved ns", "second ns", "copy ns", "ratio"
    );
}

fn print_line(name: &str, bytes: usize, times: &Times) {
    println!(
        "  {name:<40} {bytes:>7} {:>11.1} {:>11.1} {:>11.1} {:>6.2}",
        times.proved,
        times.second,
        times.copy,
        times.proved / times.second
    );
}

fn plot(title: &str, points: &[(usize, Times)]) {
    let most = points
        .iter()
        .map(|(_, times)| times.proved.max(times.second))
        .fold(1.0, f64::max);
    println!("\n{title}");
    for (size, times) in points {
        for (name, time) in [("proved", times.proved), ("second", times.second)] {
            let bar = "#".repeat((time / most * 64.0).round().max(1.0) as usize);
            println!(
                "  {size:>6} {name} {time:>11.0} ns {:>7.3} ns/byte {bar}",
                time / *size as f64
            );
        }
    }
}
