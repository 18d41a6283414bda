// Runs made at random from a seed: images of networks within limits, events with and without faults, and ways to damage both.

use std::collections::BTreeMap;

const MAX_LABEL: u32 = 2_031_585;

/// Random numbers from a seed (splitmix64).
pub struct Random(pub u64);

impl Random {
    pub fn next(&mut self) -> u64 {
        self.0 = self.0.wrapping_add(0x9e37_79b9_7f4a_7c15);
        let mut z = self.0;
        z = (z ^ (z >> 30)).wrapping_mul(0xbf58_476d_1ce4_e5b9);
        z = (z ^ (z >> 27)).wrapping_mul(0x94d0_49bb_1331_11eb);
        z ^ (z >> 31)
    }

    /// A number below `limit`, which is not 0.
    pub fn below(&mut self, limit: usize) -> usize {
        (self.next() % limit as u64) as usize
    }

    /// True once in `times`.
    pub fn once_in(&mut self, times: usize) -> bool {
        self.below(times) == 0
    }

    pub fn pick<T: Copy>(&mut self, from: &[T]) -> T {
        from[self.below(from.len())]
    }
}

/// A run as a list of records.
#[derive(Clone)]
pub struct Made {
    pub nodes: u8,
    pub origin: u8,
    pub records: Vec<Vec<u8>>,
    /// The arcs after the last record.
    arcs: BTreeMap<(u8, u8), u16>,
}

impl Made {
    pub fn bytes(&self) -> Vec<u8> {
        self.records.concat()
    }

    /// Adds a record of kind 2.
    pub fn arc(&mut self, sender: u8, receiver: u8, cost: u16) {
        let [high, low] = cost.to_be_bytes();
        self.records.push(vec![2, sender, receiver, high, low]);
        if cost == 0 {
            self.arcs.remove(&(sender, receiver));
        } else {
            self.arcs.insert((sender, receiver), cost);
        }
    }

    /// Adds a record of kind 3.
    pub fn row(&mut self, node: u8, label: u32, predecessor: u8, list: u32) {
        let mut record = vec![3, node];
        record.extend(label.to_be_bytes());
        record.push(predecessor);
        record.extend(list.to_be_bytes());
        self.records.push(record);
    }

    /// Adds a record of kind 4.
    pub fn report(&mut self, sender: u8, receiver: u8, label: u32, list: u32) {
        let mut record = vec![4, sender, receiver];
        record.extend(label.to_be_bytes());
        record.extend(list.to_be_bytes());
        self.records.push(record);
    }

    /// Adds a record of kind 5 with these marks.
    pub fn marks(&mut self, words: [u32; 32]) {
        let mut record = vec![5];
        record.extend(words.iter().flat_map(|word| word.to_be_bytes()));
        self.records.push(record);
    }

    /// Adds an event, once in `faults` with a fault.
    pub fn event(&mut self, random: &mut Random, faults: usize) {
        let fault = random.once_in(faults);
        let (sender, receiver) = if fault && random.once_in(3) { wrong_pair(random, self.nodes) } else { some_pair(random, self.nodes) };
        match random.below(8) {
            0 | 1 => {
                let cost = if random.once_in(3) { 0 } else { some_cost(random) };
                self.arc(sender, receiver, cost);
            }
            2 => {
                let grade = if fault { random.pick(&[16, 17, 31, 32, 128, 255]) } else { random.below(16) as u8 };
                self.records.push(vec![7, sender, receiver, grade]);
                if grade == 0 {
                    self.arcs.remove(&(sender, receiver));
                } else {
                    self.arcs.insert((sender, receiver), 1);
                }
            }
            3 | 4 | 5 => {
                let words = self.some_marks(random, fault);
                self.marks(words);
            }
            _ if fault => self.records.push(vec![random.pick(&[0, 1, 3, 4, 8, 9, 255])]),
            _ => self.records.push(vec![6]),
        }
    }

    /// Marks on some of the arcs; with a fault also on pairs that have none, on a node itself or on absent nodes.
    fn some_marks(&self, random: &mut Random, fault: bool) -> [u32; 32] {
        let mut words = [0u32; 32];
        let of = 1 + random.below(4);
        for &(sender, receiver) in self.arcs.keys() {
            if sender < 32 && receiver < 32 && !random.once_in(of) {
                words[receiver as usize] |= 1 << sender;
            }
        }
        if fault {
            for _ in 0..1 + random.below(3) {
                let node = random.below(self.nodes as usize);
                match random.below(5) {
                    0 => words[node] |= 1 << node,
                    1 => words[random.below(32)] |= 1 << node,
                    2 => words[node] |= 1 << random.below(32),
                    3 => words[random.pick(&[self.nodes as usize, 31]).min(31)] |= 1 << random.below(32),
                    _ => words[random.below(32)] = random.next() as u32,
                }
            }
        }
        words
    }
}

/// A number of nodes; small ones and the largest are frequent.
pub fn some_nodes(random: &mut Random) -> u8 {
    match random.below(24) {
        0 => 1,
        1..=3 => 2,
        4..=9 => 3,
        10..=15 => 4,
        16..=19 => 5 + random.below(4) as u8,
        20..=21 => 9 + random.below(23) as u8,
        22 => 31,
        _ => 32,
    }
}

/// Two nodes below n, different ones where n is not 1.
fn some_pair(random: &mut Random, nodes: u8) -> (u8, u8) {
    let sender = random.below(nodes as usize) as u8;
    let step = if nodes > 1 { 1 + random.below(nodes as usize - 1) as u8 } else { 0 };
    (sender, (sender + step) % nodes)
}

/// Two numbers that are no pair of nodes.
fn wrong_pair(random: &mut Random, nodes: u8) -> (u8, u8) {
    let node = random.below(nodes as usize) as u8;
    let absent = random.pick(&[nodes, nodes.wrapping_add(1), 32, 33, 255]).max(nodes);
    random.pick(&[(node, node), (node, absent), (absent, node), (absent, absent)])
}

/// A cost from 1; small ones are frequent, so that equal offers are.
fn some_cost(random: &mut Random) -> u16 {
    match random.below(8) {
        0 => random.pick(&[65_535, 65_534, 32_768, 256, 255]),
        1 => 1 + random.below(65_535) as u16,
        _ => 1 + random.below(4) as u16,
    }
}

/// A label from `least`; small ones and those near the limit are frequent. A cost is added to it somewhere.
fn some_label(random: &mut Random, least: u32, cost: u16) -> u32 {
    let near = MAX_LABEL - u32::from(cost);
    match random.below(8) {
        0 => random.pick(&[MAX_LABEL, MAX_LABEL - 1]),
        1 => random.pick(&[near - 1, near, near + 1]).min(MAX_LABEL),
        2 => least + random.below((MAX_LABEL - least + 1) as usize) as u32,
        3 => random.pick(&[65_535, 65_536, 131_071]),
        _ => least + random.below(5) as u32,
    }
}

/// A list of nodes below n that has the given one.
fn some_list(random: &mut Random, nodes: u8, node: u8) -> u32 {
    let all = u32::MAX >> (32 - u32::from(nodes));
    let others = match random.below(6) {
        0 => 0,
        1 => all,
        2 => all & random.next() as u32,
        3 => all & !(1 << random.below(nodes as usize)),
        _ => all & (random.next() & random.next()) as u32,
    };
    others | 1 << node
}

/// The image of a network within limits, with rows and reports that no round need have made.
pub fn image(random: &mut Random, nodes: u8) -> Made {
    let origin = random.below(nodes as usize) as u8;
    let mut made = Made { nodes, origin, records: vec![vec![1, nodes, origin]], arcs: BTreeMap::new() };
    // How many pairs of a hundred have an arc, and arcs and nodes of a hundred a report and a row.
    let dense = random.pick(&[5, 30, 60, 100]);
    let filled = random.pick(&[0, 30, 70, 100]);
    for sender in 0..nodes {
        for receiver in 0..nodes {
            if sender != receiver && random.below(100) < dense {
                let cost = some_cost(random);
                made.arc(sender, receiver, cost);
            }
        }
    }
    for node in 0..nodes {
        if node != origin && random.below(100) < filled {
            let (_, predecessor) = some_pair(random, nodes);
            let predecessor = if predecessor == node { (node + 1) % nodes } else { predecessor };
            let (label, list) = (some_label(random, 1, 1), some_list(random, nodes, node));
            made.row(node, label, predecessor, list);
        }
    }
    for ((sender, receiver), cost) in made.arcs.clone() {
        if random.below(100) < filled {
            let (label, list) = (some_label(random, 0, cost), some_list(random, nodes, sender));
            made.report(sender, receiver, label, list);
        }
    }
    made.records.push(vec![0]);
    made
}

/// The image with the most bytes: 32 nodes, every arc, row and report.
pub fn dense(random: &mut Random) -> Made {
    let mut made = Made { nodes: 32, origin: random.below(32) as u8, records: Vec::new(), arcs: BTreeMap::new() };
    made.records.push(vec![1, 32, made.origin]);
    for sender in 0..32 {
        for receiver in (0..32).filter(|&receiver| receiver != sender) {
            let cost = some_cost(random);
            made.arc(sender, receiver, cost);
        }
    }
    for node in (0..32).filter(|&node| node != made.origin).collect::<Vec<u8>>() {
        let (label, list) = (some_label(random, 1, 1), some_list(random, 32, node));
        made.row(node, label, (node + 1) % 32, list);
    }
    for ((sender, receiver), cost) in made.arcs.clone() {
        let (label, list) = (some_label(random, 0, cost), some_list(random, 32, sender));
        made.report(sender, receiver, label, list);
    }
    made.records.push(vec![0]);
    made
}

/// A whole run: an image and up to `events` events, most of them without a fault.
pub fn run(random: &mut Random, nodes: u8, events: usize) -> Made {
    let mut made = image(random, nodes);
    for _ in 0..random.below(events + 1) {
        made.event(random, 24);
    }
    made
}

/// Sets one to three fields of one record to values at and around their limits. Half the time it is a row or a report, the one as often as the other.
pub fn wrong_fields(random: &mut Random, made: &Made) -> Vec<u8> {
    let mut made = made.clone();
    let kind = random.pick(&[3, 4]);
    let of_kind: Vec<usize> = (0..made.records.len()).filter(|&at| made.records[at][0] == kind).collect();
    let chosen = if of_kind.is_empty() || random.once_in(2) { random.below(made.records.len()) } else { random.pick(&of_kind) };
    let (nodes, origin) = (made.nodes, made.origin);
    let beyond = if nodes < 32 { 1u32 << nodes } else { 0 };
    let record = &mut made.records[chosen];
    for _ in 0..1 + random.below(3) {
        let node = random.pick(&[0, origin, nodes - 1, nodes, nodes.wrapping_add(1), 31, 32, 255]);
        let label = random.pick(&[0, 1, MAX_LABEL, MAX_LABEL + 1, MAX_LABEL | 1 << 24, 1 << 31, u32::MAX]);
        let list = random.pick(&[0, 1, beyond, beyond | u32::MAX >> 1, u32::MAX, 1 << 31]);
        let put = |record: &mut Vec<u8>, at: usize, number: &[u8]| {
            if at + number.len() <= record.len() {
                record[at..at + number.len()].copy_from_slice(number);
            }
        };
        match (record[0], random.below(4)) {
            (_, 3) if random.once_in(6) => record[0] = random.pick(&[0, 1, 2, 3, 4, 5, 6, 7, 8, 16, 255]),
            (1, 0) => put(record, 1, &[random.pick(&[0, 1, 2, 31, 32, 33, 64, 128, 255])]),
            (1, _) => put(record, 2, &[node]),
            (2 | 4 | 7, 0) => put(record, 1, &[node]),
            (2 | 4 | 7, 1) => put(record, 2, &[node]),
            (2, _) => {
                let cost: u16 = random.pick(&[0, 1, 65_535]);
                put(record, 3, &cost.to_be_bytes());
            }
            (3 | 4, 3) if record.len() == 11 && random.once_in(2) => record[7 + random.below(4)] ^= 1 << random.below(8),
            (3, 0) => put(record, 1, &[node]),
            (3, 1) => put(record, 2, &label.to_be_bytes()),
            (3, 2) => {
                let predecessor = random.pick(&[node, record.get(1).copied().unwrap_or(0)]);
                put(record, 6, &[predecessor]);
            }
            (3, _) => put(record, 7, &list.to_be_bytes()),
            (4, 2) => put(record, 3, &label.to_be_bytes()),
            (4, _) => put(record, 7, &list.to_be_bytes()),
            (5, _) => {
                let word = random.below(32);
                put(record, 1 + 4 * word, &(1u32 << random.below(32)).to_be_bytes());
            }
            (7, _) => put(record, 3, &[random.pick(&[0, 1, 14, 15, 16, 17, 255])]),
            _ => (),
        }
    }
    made.bytes()
}

/// Moves, repeats, inserts or deletes a record, or gives it another kind's place.
pub fn wrong_records(random: &mut Random, made: &Made, other: &Made) -> Vec<u8> {
    let mut records = made.records.clone();
    for _ in 0..1 + random.below(2) {
        if records.is_empty() {
            break;
        }
        let at = random.below(records.len());
        let to = random.below(records.len());
        match random.below(5) {
            0 => records.swap(at, to),
            1 if at + 1 < records.len() => records.swap(at, at + 1),
            2 => records.insert(to, records[at].clone()),
            3 => records.insert(to, other.records[random.below(other.records.len())].clone()),
            _ => {
                records.remove(at);
            }
        }
    }
    records.concat()
}

/// Changes, inserts or deletes single bytes.
pub fn wrong_bytes(random: &mut Random, run: &[u8]) -> Vec<u8> {
    let mut run = run.to_vec();
    for _ in 0..1 + random.below(2) {
        if run.is_empty() {
            break;
        }
        let at = random.below(run.len());
        match random.below(6) {
            0 => run.insert(at, random.below(256) as u8),
            1 => {
                run.remove(at);
            }
            2 => run[at] ^= 1 << random.below(8),
            3 => run[at] = random.below(9) as u8,
            _ => run[at] = random.below(256) as u8,
        }
    }
    run
}

/// Bytes without order; half of them look like the start of a run.
pub fn any_bytes(random: &mut Random) -> Vec<u8> {
    let most = random.pick(&[4, 16, 64, 300]);
    let length = random.below(most);
    let small = random.once_in(2);
    let mut bytes: Vec<u8> = (0..length).map(|_| if small { random.below(9) as u8 } else { random.below(256) as u8 }).collect();
    if random.once_in(2) {
        let nodes = some_nodes(random);
        bytes.splice(0..0, [1, nodes, random.below(nodes as usize) as u8]);
        if random.once_in(2) {
            bytes.insert(3, 0);
        }
    }
    bytes
}
