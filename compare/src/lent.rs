//! Random arguments for the writers, and damage to them.

use crate::difference::hex;
use crate::random::Random;
use crate::second::message::{Kind, HEADER, ID, MOST_PAYLOAD};
use crate::second::write::{write, Body, Dequeued, Domain, Head, Queues, Services, Strings, Xid};

/// The eleven types.
pub const KINDS: [Kind; 11] = [
    Kind::ConnectRequest,
    Kind::ConnectReply,
    Kind::DisconnectRequest,
    Kind::DisconnectReply,
    Kind::DiscoveryRequest,
    Kind::TopologyUpdate,
    Kind::DiscoveryReply,
    Kind::ServiceReply,
    Kind::RollbackRequest,
    Kind::RollbackReply,
    Kind::DequeueReply,
];

/// The arguments of a writer, by their shape and in the order of the header's parameters, so that they can be damaged
/// without regard to the type. The first two runs are correlation and execution.
#[derive(Clone)]
pub struct Lent {
    pub kind: Kind,
    pub runs: Vec<Vec<u8>>,
    pub lists: Vec<Vec<u64>>,
    pub numbers: Vec<u64>,
}

/// How large random arguments become.
#[derive(Clone, Copy)]
pub struct Scale {
    /// From so many elements in a list to so many.
    pub elements: (u64, u64),
    /// From so many bytes in a string to so many.
    pub string: (u64, u64),
}

impl Scale {
    fn count(self, random: &mut Random) -> usize {
        random.within(self.elements.0, self.elements.1) as usize
    }

    fn length(self, random: &mut Random) -> u64 {
        random.within(self.string.0, self.string.1)
    }
}

impl Lent {
    /// Random arguments that the type's writer accepts, unless the message becomes too large.
    pub fn random(random: &mut Random, kind: Kind, scale: Scale) -> Lent {
        let mut lent = Lent {
            kind,
            runs: vec![random.bytes(ID), random.bytes(ID)],
            lists: Vec::new(),
            numbers: Vec::new(),
        };
        let count = scale.count(random);
        match kind {
            Kind::DisconnectRequest | Kind::DisconnectReply => {}
            Kind::ConnectRequest => {
                lent.add_domain(random, scale);
                lent.add_numbers(count, |_| {
                    random.pick(&[999, 1000, 1001, 1002, 1003, 1004, 1005, u64::MAX])
                });
            }
            Kind::ConnectReply => {
                lent.add_domain(random, scale);
                lent.numbers = vec![random.pick(&[0, 1000, 1001, 1002, 1003, 1004])];
            }
            Kind::DiscoveryRequest => {
                lent.add_domain(random, scale);
                lent.add_strings(random, count, scale);
                let count = scale.count(random);
                lent.add_strings(random, count, scale);
            }
            Kind::TopologyUpdate => {
                lent.runs.push(random.bytes(ID * count));
                lent.add_strings(random, count, scale);
            }
            Kind::DiscoveryReply => {
                lent.add_domain(random, scale);
                lent.add_strings(random, count, scale);
                lent.add_strings(random, count, scale);
                lent.add_numbers(count, |_| random.below(4));
                lent.add_numbers(count, |_| random.odd_number());
                lent.add_numbers(count, |_| random.odd_number());
                let count = scale.count(random);
                lent.add_strings(random, count, scale);
                lent.add_numbers(count, |_| random.odd_number());
                lent.add_numbers(count, |_| random.odd_number());
                lent.add_numbers(count, |_| random.below(2));
                lent.add_numbers(count, |_| random.below(2));
            }
            Kind::ServiceReply => {
                lent.numbers = vec![random.odd_number(), random.odd_number(), random.below(4)];
                lent.add_string(random, scale);
                lent.add_string(random, scale);
            }
            Kind::RollbackRequest | Kind::RollbackReply => lent.add_xid(random),
            Kind::DequeueReply => {
                lent.runs.push(random.bytes(ID * count));
                lent.add_strings(random, count, scale);
                lent.add_strings(random, count, scale);
                lent.add_numbers(count, |_| random.odd_number());
                lent.add_strings(random, count, scale);
                lent.add_strings(random, count, scale);
                lent.add_numbers(count, |_| random.odd_number());
                lent.add_numbers(count, |_| random.odd_number());
            }
        }
        lent
    }

    fn add_domain(&mut self, random: &mut Random, scale: Scale) {
        self.runs.push(random.bytes(ID));
        self.add_string(random, scale);
    }

    fn add_string(&mut self, random: &mut Random, scale: Scale) {
        let length = scale.length(random);
        self.runs.push(random.bytes(length as usize));
    }

    fn add_strings(&mut self, random: &mut Random, count: usize, scale: Scale) {
        self.add_numbers(count, |_| scale.length(random));
        let sum: u64 = self.lists[self.lists.len() - 1].iter().sum();
        self.runs.push(random.bytes(sum as usize));
    }

    fn add_numbers(&mut self, count: usize, number: impl FnMut(usize) -> u64) {
        self.lists.push((0..count).map(number).collect());
    }

    /// An xid, then the two numbers that follow it.
    fn add_xid(&mut self, random: &mut Random) {
        let format = random.pick(&[0, 1, 42, u64::MAX]);
        let gtrid = if format == 0 {
            0
        } else {
            random.pick(&[0, 1, 16, 63, 64])
        };
        let bqual = if format == 0 { 0 } else { random.within(0, 64) };
        self.runs.push(random.bytes((gtrid + bqual) as usize));
        self.numbers = vec![format, gtrid, bqual, random.odd_number(), random.odd_number()];
    }

    pub fn head(&self) -> Head<'_> {
        Head {
            correlation: &self.runs[0],
            execution: &self.runs[1],
        }
    }

    pub fn body(&self) -> Body<'_> {
        let run = |n: usize| self.runs[n].as_slice();
        let list = |n: usize| self.lists[n].as_slice();
        let strings = |lengths: usize, bytes: usize| Strings {
            lengths: list(lengths),
            bytes: run(bytes),
        };
        let domain = || Domain {
            id: run(2),
            name: run(3),
        };
        let xid = || Xid {
            format: self.numbers[0],
            gtrid: self.numbers[1],
            bqual: self.numbers[2],
            data: run(2),
        };
        match self.kind {
            Kind::DisconnectRequest => Body::DisconnectRequest,
            Kind::DisconnectReply => Body::DisconnectReply,
            Kind::ConnectRequest => Body::ConnectRequest {
                domain: domain(),
                versions: list(0),
            },
            Kind::ConnectReply => Body::ConnectReply {
                domain: domain(),
                version: self.numbers[0],
            },
            Kind::DiscoveryRequest => Body::DiscoveryRequest {
                domain: domain(),
                services: strings(0, 4),
                queues: strings(1, 5),
            },
            Kind::TopologyUpdate => Body::TopologyUpdate {
                ids: run(2),
                names: strings(0, 3),
            },
            Kind::DiscoveryReply => Body::DiscoveryReply {
                domain: domain(),
                services: Services {
                    names: strings(0, 4),
                    categories: strings(1, 5),
                    transactions: list(2),
                    timeouts: list(3),
                    hops: list(4),
                },
                queues: Queues {
                    names: strings(5, 6),
                    retry_counts: list(6),
                    retry_delays: list(7),
                    enqueues: list(8),
                    dequeues: list(9),
                },
            },
            Kind::ServiceReply => Body::ServiceReply {
                result: self.numbers[0] as u32,
                user: self.numbers[1],
                state: self.numbers[2],
                buffer_type: run(2),
                buffer_data: run(3),
            },
            Kind::RollbackRequest => Body::RollbackRequest {
                xid: xid(),
                resource: self.numbers[3] as u32,
                flags: self.numbers[4],
            },
            Kind::RollbackReply => Body::RollbackReply {
                xid: xid(),
                resource: self.numbers[3] as u32,
                state: self.numbers[4] as u32,
            },
            Kind::DequeueReply => Body::DequeueReply(Dequeued {
                ids: run(2),
                properties: strings(0, 3),
                reply_queues: strings(1, 4),
                availables: list(2),
                data_types: strings(3, 5),
                data: strings(4, 6),
                redelivereds: list(5),
                timestamps: list(6),
            }),
        }
    }

    /// The message that the second writer makes of them, at the newest version that has the type.
    pub fn message(&self) -> Option<Vec<u8>> {
        let mut out = vec![0; HEADER + MOST_PAYLOAD];
        let used = write(&mut out, *self.kind.versions().end(), self.head(), &self.body()).ok()?;
        out.truncate(used);
        Some(out)
    }

    /// Makes the last string longer, so that the payload gets the wanted size, if the type has strings and it can.
    pub fn stretch(&mut self, random: &mut Random, payload: usize) {
        let (run, lengths) = match self.kind {
            Kind::ConnectRequest | Kind::ConnectReply | Kind::DiscoveryRequest | Kind::DiscoveryReply => (3, None),
            Kind::ServiceReply => (3, None),
            Kind::TopologyUpdate => (3, Some(0)),
            Kind::DequeueReply => (6, Some(4)),
            _ => return,
        };
        let Some(used) = self.message().map(|message| message.len()) else {
            return;
        };
        let extra = (HEADER + payload).saturating_sub(used);
        if let Some(lengths) = lengths {
            let Some(last) = self.lists[lengths].last_mut() else {
                return;
            };
            *last += extra as u64;
        }
        self.runs[run].extend(random.bytes(extra));
    }

    /// Changes one thing, as a careless or hostile caller would.
    pub fn damage(&mut self, random: &mut Random) {
        match random.below(9) {
            0 => self.damage_run(random),
            1 => self.damage_list(random),
            2 => self.damage_numbers(random),
            3 => self.shift_lengths(random),
            4 | 5 => self.damage_xid(random),
            6 | 7 => self.damage_value(random),
            _ => {
                self.damage_run(random);
                self.damage_list(random);
            }
        }
    }

    fn damage_run(&mut self, random: &mut Random) {
        let n = random.index(self.runs.len());
        let run = &mut self.runs[n];
        match random.below(5) {
            0 => run.clear(),
            1 => run.truncate(run.len() / 2),
            2 => run.truncate(run.len().saturating_sub(1)),
            3 => run.push(7),
            _ => run.extend([7; 16]),
        }
    }

    fn damage_list(&mut self, random: &mut Random) {
        if self.lists.is_empty() {
            return self.damage_run(random);
        }
        let n = random.index(self.lists.len());
        let list = &mut self.lists[n];
        match random.below(5) {
            0 => list.push(0),
            1 => list.truncate(list.len().saturating_sub(1)),
            2 => list.clear(),
            _ if list.is_empty() => list.push(random.odd_number()),
            3 => {
                let at = random.index(list.len());
                list[at] = list[at].wrapping_add(1);
            }
            _ => {
                let at = random.index(list.len());
                list[at] = random.odd_number();
            }
        }
    }

    fn damage_numbers(&mut self, random: &mut Random) {
        if self.numbers.is_empty() {
            return self.damage_list(random);
        }
        let n = random.index(self.numbers.len());
        self.numbers[n] = random.odd_number();
    }

    /// Changes one value of a list or one number, without changing a length: to one that is just too large, or that
    /// is right only in its lowest bits.
    fn damage_value(&mut self, random: &mut Random) {
        let mut values: Vec<&mut u64> = match self.kind {
            // Modes and the two flags are the values that the writer judges.
            Kind::DiscoveryReply => self
                .lists
                .iter_mut()
                .enumerate()
                .filter(|(n, _)| [2, 8, 9].contains(n))
                .flat_map(|(_, list)| list)
                .collect(),
            _ => self.numbers.iter_mut().chain(self.lists.iter_mut().flatten()).collect(),
        };
        if values.is_empty() {
            return self.damage_run(random);
        }
        let at = random.index(values.len());
        let value = &mut *values[at];
        *value = match random.below(3) {
            0 => random.within(1, 5),
            1 => random.pick(&[999, 1005, 1000 + (1 << 32)]),
            _ => (*value & 3) + (1 << random.pick(&[8, 16, 32, 63])),
        };
    }

    /// Changes two lengths of a list by opposite amounts: their sum stays the same if it wraps around.
    fn shift_lengths(&mut self, random: &mut Random) {
        let shift = random.odd_number();
        if let Some(list) = self.lists.iter_mut().find(|list| list.len() > 1) {
            list[0] = list[0].wrapping_add(shift);
            list[1] = list[1].wrapping_sub(shift);
        }
    }

    /// Lengths of an xid whose sum fits the data only if it wraps around, or that are near their limits or near
    /// 128, the limit of both together before T-03.
    fn damage_xid(&mut self, random: &mut Random) {
        if !matches!(self.kind, Kind::RollbackRequest | Kind::RollbackReply) {
            return self.damage_list(random);
        }
        if random.chance(50) {
            let shift = random.odd_number();
            self.numbers[1] = self.numbers[1].wrapping_add(shift);
            self.numbers[2] = self.numbers[2].wrapping_sub(shift);
        } else {
            let halves = [0, 1, 63, 64, 65, 66, 127, 128, 129];
            let (gtrid, bqual) = (random.pick(&halves), random.pick(&halves));
            self.numbers[1] = gtrid;
            self.numbers[2] = bqual;
            self.runs[2] = random.bytes((gtrid + bqual) as usize);
        }
    }

    /// The arguments in words, for the description of a difference.
    pub fn describe(&self) -> String {
        let runs: Vec<String> = self.runs.iter().map(|run| hex(run)).collect();
        format!(
            "writer of {}\n  runs {runs:?}\n  lists {:?}\n  numbers {:?}",
            self.kind.number(),
            self.lists,
            self.numbers
        )
    }
}
