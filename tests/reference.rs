// Document 01 with change requests One and Two in plain Rust, written from the papers alone: opening, events, rounds, changes, grades, image writing, and the
// table of `routes`.
// Clear rather than quick: an ancestor list is a set of nodes, arcs and held reports are maps by sender and receiver.
// Built by itself it is a program: `reference text` prints what `routes` prints for the run on standard input, `reference image` writes the run's image.

use std::collections::{BTreeMap, BTreeSet};
use std::io::{Read, Write};

/// The largest label: 31 arcs of the largest cost.
pub const MAX_LABEL: u32 = 2_031_585;
/// The longest run that the C call takes.
pub const MAX_RUN: usize = 1_048_576;
/// The longest input that `routes` takes.
pub const MAX_INPUT: usize = 65_536;

/// The costs of grades 0 to 15.
const GRADES: [u16; 16] = [0, 600, 480, 380, 300, 240, 190, 150, 120, 95, 75, 60, 48, 38, 30, 24];

/// A sender and a receiver.
pub type Pair = (u8, u8);

/// The nodes of an ancestor list.
pub type List = BTreeSet<u8>;

/// A row with a route.
#[derive(Clone, Debug, PartialEq)]
pub struct Row {
    pub label: u32,
    /// The origin has none.
    pub predecessor: Option<u8>,
    pub list: List,
}

/// A held report that is not empty.
#[derive(Clone, Debug, PartialEq)]
pub struct Report {
    pub label: u32,
    pub list: List,
}

#[derive(Clone, Debug)]
pub struct Network {
    pub nodes: u8,
    pub origin: u8,
    pub arcs: BTreeMap<Pair, u16>,
    /// A row for each node; `None` is no route.
    pub rows: Vec<Option<Row>>,
    pub reports: BTreeMap<Pair, Report>,
}

/// A number and a place.
#[derive(Clone, Copy, Debug, PartialEq)]
pub struct Refusal {
    pub number: u8,
    pub place: usize,
}

/// What a run answers when its image is accepted.
pub struct Run {
    pub network: Network,
    pub rounds: u64,
    pub stop: Option<Refusal>,
}

/// A record: its place, its kind and its body.
struct Record<'a> {
    place: usize,
    kind: u8,
    body: &'a [u8],
}

impl Network {
    /// No arcs, and no routes but the origin's.
    fn fresh(nodes: u8, origin: u8) -> Network {
        let mut rows = vec![None; nodes as usize];
        rows[origin as usize] = Some(Row { label: 0, predecessor: None, list: List::from([origin]) });
        Network { nodes, origin, arcs: BTreeMap::new(), rows, reports: BTreeMap::new() }
    }

    /// A pair of different nodes of this network.
    fn is_pair(&self, (sender, receiver): Pair) -> bool {
        sender < self.nodes && receiver < self.nodes && sender != receiver
    }

    /// A list that names nodes of this network only, the given one among them.
    fn is_list(&self, list: &List, node: u8) -> bool {
        list.iter().all(|&member| member < self.nodes) && list.contains(&node)
    }

    /// Sets the cost of a pair; 0 removes its arc.
    fn change(&mut self, pair: Pair, cost: u16) {
        if cost == 0 {
            self.arcs.remove(&pair);
            self.reports.remove(&pair);
        } else {
            self.arcs.insert(pair, cost);
        }
    }

    /// One round in which the given arcs are heard.
    fn round(&mut self, heard: &BTreeSet<Pair>) {
        for &(sender, receiver) in heard {
            match &self.rows[sender as usize] {
                Some(row) => self.reports.insert((sender, receiver), Report { label: row.label, list: row.list.clone() }),
                None => self.reports.remove(&(sender, receiver)),
            };
        }
        for node in (0..self.nodes).filter(|&node| node != self.origin) {
            self.rows[node as usize] = self.chosen_row(node);
        }
    }

    /// The row that a relay gets from its held reports and present costs.
    fn chosen_row(&self, receiver: u8) -> Option<Row> {
        let mut offers: Vec<(u32, usize, u8)> = Vec::new();
        for (&(sender, to), report) in &self.reports {
            if to == receiver && !report.list.contains(&receiver) {
                let sum = report.label + u32::from(self.arcs[&(sender, to)]);
                if sum <= MAX_LABEL {
                    offers.push((sum, report.list.len(), sender));
                }
            }
        }
        // The least sum; among equal sums the report that lists the fewest nodes, and then the lowest sender.
        let &(label, _, sender) = offers.iter().min()?;
        let mut list = self.reports[&(sender, receiver)].list.clone();
        list.insert(receiver);
        Some(Row { label, predecessor: Some(sender), list })
    }

    /// The bytes of this network's image.
    pub fn image(&self) -> Vec<u8> {
        let mut bytes = vec![1, self.nodes, self.origin];
        for (&(sender, receiver), cost) in &self.arcs {
            bytes.extend([2, sender, receiver]);
            bytes.extend(cost.to_be_bytes());
        }
        for (node, row) in self.rows.iter().enumerate() {
            let Some(Row { label, predecessor: Some(predecessor), list }) = row else { continue };
            bytes.extend([3, node as u8]);
            bytes.extend(label.to_be_bytes());
            bytes.push(*predecessor);
            bytes.extend(word_of(list).to_be_bytes());
        }
        for (&(sender, receiver), report) in &self.reports {
            bytes.extend([4, sender, receiver]);
            bytes.extend(report.label.to_be_bytes());
            bytes.extend(word_of(&report.list).to_be_bytes());
        }
        bytes.push(0);
        bytes
    }
}

/// Bit i of a list's word stands for node i.
fn list_of(word: u32) -> List {
    (0..32u8).filter(|&node| (word >> node) % 2 == 1).collect()
}

fn word_of(list: &List) -> u32 {
    list.iter().map(|&node| 2u32.pow(u32::from(node))).sum()
}

/// The number in four bytes, most significant first.
fn number_of(bytes: &[u8]) -> u32 {
    bytes.iter().fold(0, |number, &byte| number * 256 + u32::from(byte))
}

/// The body's length of each kind.
fn body_length(kind: u8) -> usize {
    match kind {
        0 | 6 => 0,
        1 => 2,
        2 => 4,
        3 | 4 => 10,
        5 => 128,
        7 => 3,
        _ => unreachable!("no such kind is allowed anywhere"),
    }
}

/// The record at a place where the given kinds are allowed.
fn record_at<'a>(input: &'a [u8], place: usize, allowed: &[u8]) -> Result<Record<'a>, Refusal> {
    let Some(&kind) = input.get(place) else { return Err(Refusal { number: 1, place: input.len() }) };
    if !allowed.contains(&kind) {
        return Err(Refusal { number: 2, place });
    }
    let Some(body) = input.get(place + 1..place + 1 + body_length(kind)) else { return Err(Refusal { number: 1, place }) };
    Ok(Record { place, kind, body })
}

/// Where a record stands in image order: arcs, rows, reports, each ascending.
type Order = (u8, u8, u8);

/// Does one record of an image after the first, and answers where it stands in image order; `before` is where the record before it stands.
fn image_record(network: &mut Network, record: &Record, before: Option<Order>) -> Result<Order, u8> {
    let body = record.body;
    match record.kind {
        2 => {
            let pair = (body[0], body[1]);
            let cost = number_of(&body[2..4]) as u16;
            if !network.is_pair(pair) || cost == 0 {
                return Err(3);
            }
            let order = above((2, pair.0, pair.1), before)?;
            network.arcs.insert(pair, cost);
            Ok(order)
        }
        3 => {
            let node = body[0];
            let (label, predecessor, list) = (number_of(&body[1..5]), body[5], list_of(number_of(&body[6..10])));
            if node >= network.nodes {
                return Err(3);
            }
            let order = above((3, node, 0), before)?;
            if node == network.origin {
                return Err(5);
            }
            if !(1..=MAX_LABEL).contains(&label) {
                return Err(10);
            }
            if predecessor >= network.nodes || predecessor == node {
                return Err(11);
            }
            if !network.is_list(&list, node) {
                return Err(12);
            }
            network.rows[node as usize] = Some(Row { label, predecessor: Some(predecessor), list });
            Ok(order)
        }
        _ => {
            let pair = (body[0], body[1]);
            let (label, list) = (number_of(&body[2..6]), list_of(number_of(&body[6..10])));
            if !network.is_pair(pair) {
                return Err(3);
            }
            let order = above((4, pair.0, pair.1), before)?;
            if !network.arcs.contains_key(&pair) {
                return Err(5);
            }
            if label > MAX_LABEL {
                return Err(10);
            }
            if !network.is_list(&list, pair.0) {
                return Err(12);
            }
            network.reports.insert(pair, Report { label, list });
            Ok(order)
        }
    }
}

/// 4 where a record is not above the one before it.
fn above(order: Order, before: Option<Order>) -> Result<Order, u8> {
    match before {
        Some(before) if order <= before => Err(4),
        _ => Ok(order),
    }
}

/// The network of an image and the number of bytes used.
pub fn open(input: &[u8]) -> Result<(Network, usize), Refusal> {
    let header = record_at(input, 0, &[1])?;
    let (nodes, origin) = (header.body[0], header.body[1]);
    if nodes == 0 || nodes > 32 || origin >= nodes {
        return Err(Refusal { number: 3, place: 0 });
    }
    let mut network = Network::fresh(nodes, origin);
    let mut before = None;
    let mut place = 3;
    loop {
        let record = record_at(input, place, &[0, 2, 3, 4])?;
        place = place + 1 + record.body.len();
        if record.kind == 0 {
            return Ok((network, place));
        }
        match image_record(&mut network, &record, before) {
            Ok(order) => before = Some(order),
            Err(number) => return Err(Refusal { number, place: record.place }),
        }
    }
}

/// Does one event, and answers whether it was a round.
fn event(network: &mut Network, record: &Record) -> Result<bool, u8> {
    let body = record.body;
    match record.kind {
        2 => {
            if !network.is_pair((body[0], body[1])) {
                return Err(3);
            }
            network.change((body[0], body[1]), number_of(&body[2..4]) as u16);
            Ok(false)
        }
        5 => {
            let mut heard = BTreeSet::new();
            for (receiver, word) in body.chunks(4).enumerate() {
                heard.extend(list_of(number_of(word)).into_iter().map(|sender| (sender, receiver as u8)));
            }
            if heard.iter().any(|&pair| !network.is_pair(pair)) {
                return Err(3);
            }
            if heard.iter().any(|pair| !network.arcs.contains_key(pair)) {
                return Err(7);
            }
            network.round(&heard);
            Ok(true)
        }
        6 => {
            let heard = network.arcs.keys().copied().collect();
            network.round(&heard);
            Ok(true)
        }
        _ => {
            if !network.is_pair((body[0], body[1])) {
                return Err(3);
            }
            let Some(&cost) = GRADES.get(body[2] as usize) else { return Err(3) };
            network.change((body[0], body[1]), cost);
            Ok(false)
        }
    }
}

/// An image, then events to the input's end or to the first refusal.
pub fn run(input: &[u8]) -> Result<Run, Refusal> {
    let (mut network, mut place) = open(input)?;
    let mut rounds = 0;
    while place < input.len() {
        let done = record_at(input, place, &[2, 5, 6, 7]).and_then(|record| {
            let round = event(&mut network, &record).map_err(|number| Refusal { number, place })?;
            Ok((round, 1 + record.body.len()))
        });
        match done {
            Ok((round, length)) => {
                rounds += u64::from(round);
                place += length;
            }
            Err(stop) => return Ok(Run { network, rounds, stop: Some(stop) }),
        }
    }
    Ok(Run { network, rounds, stop: None })
}

/// The image that the C call writes where the output has room, or the refusal.
pub fn call(input: &[u8]) -> Result<Vec<u8>, Refusal> {
    if input.len() > MAX_RUN {
        return Err(Refusal { number: 3, place: 0 });
    }
    let done = run(input)?;
    match done.stop {
        Some(stop) => Err(stop),
        None => Ok(done.network.image()),
    }
}

/// The number that the C call answers for an output of this many bytes.
pub fn answer(result: &Result<Vec<u8>, Refusal>, room: usize) -> u64 {
    match result {
        Err(refusal) => 32 * refusal.place as u64 + u64::from(refusal.number),
        Ok(image) if image.len() > room => 6,
        Ok(image) => 32 * image.len() as u64,
    }
}

/// What `routes` prints.
pub fn text(input: &[u8]) -> String {
    if input.len() > MAX_INPUT {
        return "too long\n".to_string();
    }
    let done = match run(input) {
        Ok(done) => done,
        Err(Refusal { number, place }) => return format!("stopped {number} at {place}\n"),
    };
    let mut text = "node cost from hops\n".to_string();
    for (node, row) in done.network.rows.iter().enumerate() {
        text += &match row {
            None => format!("{node} - - -\n"),
            Some(Row { label, predecessor, list }) => {
                let from = predecessor.map_or("-".to_string(), |predecessor| predecessor.to_string());
                format!("{node} {label} {from} {}\n", list.len() - 1)
            }
        };
    }
    text += &format!("rounds {}\n", done.rounds);
    if let Some(Refusal { number, place }) = done.stop {
        text += &format!("stopped {number} at {place}\n");
    }
    text
}

pub fn main() {
    let mode = std::env::args().nth(1).unwrap_or_default();
    let mut input = Vec::new();
    let most = if mode == "text" { MAX_INPUT } else { MAX_RUN };
    std::io::stdin().take(most as u64 + 1).read_to_end(&mut input).expect("standard input can't be read");
    let output = match mode.as_str() {
        "text" => text(&input).into_bytes(),
        "image" => match call(&input) {
            Ok(image) => image,
            Err(Refusal { number, place }) => {
                eprintln!("refused {number} at {place}");
                std::process::exit(1);
            }
        },
        _ => {
            eprintln!("usage: reference text|image <RUN");
            std::process::exit(2);
        }
    };
    std::io::stdout().write_all(&output).expect("standard output can't be written");
}
