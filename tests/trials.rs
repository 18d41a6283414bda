// Random networks with losses of reports: the proved core's labels against real routes, and its rows against a central shortest-path calculation.
// Arguments: a seed and a count of random networks. Prints the first few differences, then how much was tried; the last line is 'differences M',
// and the exit status is 0 where M is 0.

mod central;

use central::{bit, has, pairs, Costs, Row, Search, Settled, MOST_NODES, NOBODY};
use std::ops::AddAssign;

// ---- the core

/// A network in the core, and the calls. Nothing else here is unsafe.
mod calls {
    use crate::central::Row;

    const WORDS: usize = 3232;
    type Words = [u32; WORDS];

    /// Bytes of the longest image.
    pub const LONGEST: usize = 16_217;

    extern "C" {
        fn bench_fresh(net: &mut Words, n: u32, origin: u32) -> u8;
        fn bench_change(net: &mut Words, sender: u32, receiver: u32, cost: u32) -> u8;
        fn bench_grade(net: &mut Words, sender: u32, receiver: u32, grade: u32) -> u8;
        fn bench_place_row(net: &mut Words, node: u32, label: u32, predecessor: u32, list: u32) -> u8;
        fn bench_place_report(net: &mut Words, sender: u32, receiver: u32, label: u32, list: u32) -> u8;
        fn bench_round(net: &mut Words, marks: *const u32, count: usize) -> u8;
        fn bench_full_round(net: &mut Words) -> u8;
        fn bench_row(net: &Words, node: u32, answer: &mut [u64; 5]);
        fn bench_cost(net: &Words, sender: u32, receiver: u32, answer: &mut [u64; 2]);
        fn bench_held(net: &Words, sender: u32, receiver: u32, answer: &mut [u64; 3]);
        fn bench_image(net: &Words, out: *mut u8, room: usize, answer: &mut [u64; 2]);
        fn bench_open(input: *const u8, size: usize, answer: &mut [u64; 3], net: &mut Words);
    }

    #[derive(Clone, PartialEq)]
    pub struct Network(Words);

    // SAFETY of every call: it reads and writes the words and bytes that it is lent, and no others.
    impl Network {
        pub fn fresh(n: u32, origin: u32) -> Network {
            let mut net = Network([0; WORDS]);
            unsafe { bench_fresh(&mut net.0, n, origin) };
            net
        }

        pub fn change(&mut self, sender: u32, receiver: u32, cost: u32) -> u8 {
            unsafe { bench_change(&mut self.0, sender, receiver, cost) }
        }

        pub fn grade(&mut self, sender: u32, receiver: u32, grade: u32) -> u8 {
            unsafe { bench_grade(&mut self.0, sender, receiver, grade) }
        }

        pub fn place_row(&mut self, node: u32, label: u32, predecessor: u32, list: u32) -> u8 {
            unsafe { bench_place_row(&mut self.0, node, label, predecessor, list) }
        }

        pub fn place_report(&mut self, sender: u32, receiver: u32, label: u32, list: u32) -> u8 {
            unsafe { bench_place_report(&mut self.0, sender, receiver, label, list) }
        }

        pub fn round(&mut self, marks: &[u32]) -> u8 {
            unsafe { bench_round(&mut self.0, marks.as_ptr(), marks.len()) }
        }

        pub fn full_round(&mut self) -> u8 {
            unsafe { bench_full_round(&mut self.0) }
        }

        /// A node's row; all 3 where it is refused.
        pub fn row(&self, node: u32) -> Row {
            let mut answer = [0; 5];
            unsafe { bench_row(&self.0, node, &mut answer) };
            let [number, label, predecessor, list, hops] = answer.map(|word| word as u32);
            match number {
                0 => Row { label, predecessor, list, hops },
                _ => Row { label: 3, predecessor: 3, list: 3, hops: 3 },
            }
        }

        /// A pair's cost, below 65,536 times the number of a refusal.
        pub fn cost(&self, sender: u32, receiver: u32) -> u64 {
            let mut answer = [0; 2];
            unsafe { bench_cost(&self.0, sender, receiver, &mut answer) };
            answer[0] * 65_536 + answer[1]
        }

        /// A held report in one number, label above list; 0 where it is empty, 3 where it is refused.
        pub fn held(&self, sender: u32, receiver: u32) -> u64 {
            let mut answer = [0; 3];
            unsafe { bench_held(&self.0, sender, receiver, &mut answer) };
            match answer {
                [0, label, list] => label << 32 | list,
                _ => 3,
            }
        }

        /// Writes the image, and answers its length.
        pub fn image(&self, out: &mut [u8]) -> u64 {
            let mut answer = [0; 2];
            unsafe { bench_image(&self.0, out.as_mut_ptr(), out.len(), &mut answer) };
            answer[1]
        }

        /// Opens an image, into words that are no network; also answers how many bytes it has.
        pub fn open(input: &[u8]) -> (Network, u64) {
            let (mut net, mut answer) = (Network([37; WORDS]), [0; 3]);
            unsafe { bench_open(input.as_ptr(), input.len(), &mut answer, &mut net.0) };
            (net, answer[2])
        }
    }
}

use calls::Network;

// ---- random numbers

/// A seed. Each random number is made of a seed and a place, so that the same seed gives the same trials.
#[derive(Clone, Copy)]
struct Seed(u64);

impl Seed {
    /// The seed at a place: four steps of a multiply-with-carry generator.
    fn part(self, place: u64) -> Seed {
        let mixed = self.0 ^ (place % 65_536 * 2_654_445_111 + 88_172_645_463_325_252);
        Seed((0..4).fold(mixed, |x, _| (x & 0xffff_ffff) * 4_294_883_355 + (x >> 32)))
    }

    fn bits(self, place: u64) -> u32 {
        (self.part(place).0 >> 16) as u32
    }

    /// A number below the bound; 0 where that is 0.
    fn pick(self, place: u64, bound: u32) -> u32 {
        self.bits(place).checked_rem(bound).unwrap_or(0)
    }

    /// True for so many of 64.
    fn chance(self, place: u64, many: u32) -> bool {
        self.pick(place, 64) < many
    }

    /// A node other than y, among n nodes; 0 where there is none.
    fn other(self, place: u64, n: u32, y: u32) -> u32 {
        (y + 1 + self.pick(place, n - 1)) % n
    }
}

// ---- tallies

/// How many were tried, how many of them are wrong, and how many of a further kind there were.
#[derive(Clone, Copy, Default)]
struct Tally {
    tried: u64,
    wrong: u64,
    other: u64,
}

impl Tally {
    const OTHER: Tally = Tally { tried: 0, wrong: 0, other: 1 };

    /// One comparison; a difference is told by a line where it is to be.
    fn one(same: bool, tell: bool, line: impl FnOnce() -> String) -> Tally {
        if !same && tell {
            println!("{}", line());
        }
        Tally { tried: 1, wrong: u64::from(!same), other: 0 }
    }
}

impl AddAssign for Tally {
    fn add_assign(&mut self, more: Tally) {
        self.tried += more.tried;
        self.wrong += more.wrong;
        self.other += more.other;
    }
}

/// What was tried, by kind.
#[derive(Default)]
struct Counts {
    stretches: u64,
    changes: Tally,
    garbage: Tally,
    refused: Tally,
    reopened: Tally,
    costs: Tally,
    rounds: Tally,
    /// Labels before (n-1)W rounds.
    midway: Tally,
    labels: Tally,
    /// Relays with routes of the least cost by different numbers of arcs.
    ties: Tally,
    /// Rows after (n-1)W rounds.
    early: Tally,
    /// Rows after (2n-4)W rounds, n from 3: one round before all are settled.
    nearly: Tally,
    rows: Tally,
}

impl Counts {
    /// All that is wrong, but not in the three kinds that come too early.
    fn differences(&self) -> u64 {
        let kinds = [self.changes, self.garbage, self.refused, self.reopened, self.costs, self.rounds, self.labels, self.rows];
        kinds.iter().map(|tally| tally.wrong).sum()
    }

    /// Whether a further difference is told.
    fn tell(&self) -> bool {
        self.differences() < 8
    }

    fn print(&self, seed: u64, fields: u64) {
        println!("seed {seed}");
        println!("fields {fields}");
        println!("stretches {}", self.stretches);
        println!("changes and grades {}, different {}", self.changes.tried, self.changes.wrong);
        println!("garbage rows and reports {}, different {}", self.garbage.tried, self.garbage.wrong);
        println!("refused calls {}, different {}", self.refused.tried, self.refused.wrong);
        println!("reopened rows and reports {}, different {}, images {}", self.reopened.tried, self.reopened.wrong, self.reopened.other);
        println!("costs {}, different {}", self.costs.tried, self.costs.wrong);
        println!("refused rounds {}, different {}, rounds {}", self.rounds.tried, self.rounds.wrong, self.rounds.other);
        println!("labels before (n-1)W rounds {}, false {}, undecided {}", self.midway.tried, self.midway.wrong, self.midway.other);
        println!("labels from (n-1)W rounds on {}, false {}, undecided {}", self.labels.tried, self.labels.wrong, self.labels.other);
        println!("relays with equal costs by different arcs {}, predecessor not the lowest {}", self.ties.tried, self.ties.other);
        println!("rows after (n-1)W rounds {}, not settled {}", self.early.tried, self.early.wrong);
        println!("rows after (2n-4)W rounds, n from 3, {}, not settled {}", self.nearly.tried, self.nearly.wrong);
        println!("rows from the exact bound on {}, different {}, without a route {}", self.rows.tried, self.rows.wrong, self.rows.other);
        println!("differences {}", self.differences());
    }
}

// ---- what pairs are set to

/// The costs of the grades.
const GRADES: [u32; 16] = [0, 600, 480, 380, 300, 240, 190, 150, 120, 95, 75, 60, 48, 38, 30, 24];

#[derive(Clone, Copy)]
enum Setting {
    Cost(u32),
    Grade(u32),
}

use Setting::{Cost, Grade};

impl Setting {
    /// The cost that is meant.
    fn cost(self) -> u32 {
        match self {
            Cost(cost) => cost,
            Grade(grade) => GRADES[grade as usize],
        }
    }

    /// The call itself.
    fn ask(self, net: &mut Network, s: u32, r: u32) -> u8 {
        match self {
            Cost(cost) => net.change(s, r, cost),
            Grade(grade) => net.grade(s, r, grade),
        }
    }
}

/// What a pair is set to: the least, and how many.
type Kind = (fn(u32) -> Setting, u32, u32);

const SETTINGS: [Kind; 14] = [
    (Cost, 1, 1),
    (Cost, 65_535, 1),
    (Cost, 1, 2),
    (Cost, 1, 3),
    (Cost, 1, 65_535),
    (Cost, 60_536, 5_000),
    (Cost, 1, 200),
    (Cost, 24, 1),
    (Grade, 1, 15),
    (Cost, 65_533, 3),
    // For changes alone: removals, any cost, any grade.
    (Cost, 0, 1),
    (Grade, 0, 1),
    (Cost, 0, 65_536),
    (Grade, 0, 16),
];
/// The kinds of dear and of cheap pairs.
const DEAR: usize = 9;
const CHEAP: usize = 3;
/// The first of the kinds for changes alone.
const CHANGES: usize = 10;

/// Shapes of fields: how far apart on the field's line an arc's nodes can be; then of 64 such pairs how many have an arc, the least, and how many more.
const SHAPES: [(u32, u32, u32); 9] =
    [(1, 64, 1), (1, 60, 5), (2, 60, 5), (4, 20, 45), (32, 64, 1), (32, 64, 1), (32, 1, 64), (32, 1, 20), (32, 1, 8)];

const MOST_LABEL: u32 = 2_031_585;
/// Labels of garbage, by kind: the least, and how many. Many are temptingly low.
const LABELS: [(u32, u32); 6] = [(1, 1), (1, 4), (1, 200), (2_031_583, 3), (1, 65_536), (1, MOST_LABEL)];

/// From 1 to the largest label.
fn label(seed: Seed) -> u32 {
    let (least, many) = LABELS[seed.pick(1, 6) as usize];
    least + seed.pick(2, many)
}

/// A list of some of n nodes, few or many, the node among them.
fn list(seed: Seed, n: u32, node: u32) -> u32 {
    let (a, b) = (seed.bits(3), seed.bits(4));
    let some = match seed.pick(5, 4) {
        0 => 0,
        1 => a & b & (a >> 7),
        2 => a,
        _ => a | b,
    };
    some & (u32::MAX >> (MOST_NODES - n)) | bit(node)
}

/// Labels out of their limits; the first only for a row.
const WRONG_LABELS: [u32; 3] = [0, MOST_LABEL + 1, u32::MAX];

/// A list without the node, or with a bit not below n.
fn wrong_list(seed: Seed, n: u32, node: u32) -> u32 {
    let right = list(seed, n, node);
    if n < MOST_NODES && seed.chance(6, 32) {
        right | bit(n + seed.pick(7, MOST_NODES - n))
    } else {
        right & !bit(node)
    }
}

/// Whether there is a fault of this number, where the first is given: those after it come by chance.
fn faulty(seed: Seed, first: u64, number: u64) -> bool {
    number == first || first < number && seed.chance(number, 32)
}

// ---- a field

/// What a field is made of, and whether its differences are told.
struct Field {
    seed: Seed,
    number: u64,
    nodes: u32,
    origin: u32,
    tell: bool,
}

impl Field {
    /// From 1 to 32 nodes, half the time at most 8.
    fn new(seed: Seed, number: u64, tell: bool) -> Field {
        let most = if seed.chance(1, 32) { 8 } else { MOST_NODES };
        let nodes = seed.pick(2, most) + 1;
        Field { seed, number, nodes, origin: seed.pick(3, nodes), tell }
    }

    fn is_pair(&self, s: u32, r: u32) -> bool {
        s != r && s < self.nodes && r < self.nodes
    }

    /// The place of a node on the field's line: half the time the origin is first.
    fn place(&self, node: u32) -> u32 {
        let first = self.seed.pick(13, 64);
        let shift = if first < 32 { first } else { 32 * self.nodes - self.origin };
        (node + shift) % self.nodes
    }

    /// How far apart on the field's line two nodes are.
    fn apart(&self, s: u32, r: u32) -> u32 {
        self.place(s).abs_diff(self.place(r))
    }

    /// The kind of a pair: the field's; or a cost of how far apart the nodes are, so that routes along the line cost the same whatever their arcs; or
    /// dear from the origin and cheap elsewhere; or dear up the line and cheap down.
    fn kind(&self, s: u32, r: u32) -> Kind {
        let dear = match self.seed.pick(11, 15) {
            kind @ 0..=8 => return SETTINGS[kind as usize],
            9 | 10 => return (Cost, self.apart(s, r), 1),
            11 | 12 => s == self.origin,
            _ => self.place(s) < self.place(r),
        };
        SETTINGS[if dear { DEAR } else { CHEAP }]
    }

    /// Whether a pair of different nodes has an arc at first.
    fn planted(&self, s: u32, r: u32) -> bool {
        let (reach, least, more) = SHAPES[self.seed.pick(12, 9) as usize];
        let many = least + self.seed.pick(13, more);
        self.apart(s, r) <= reach && self.seed.chance(1000 + u64::from(s * 32 + r), many)
    }

    /// The tally of one comparison of numbers.
    fn same(&self, tell: bool, what: &str, node: u32, expected: u64, found: u64) -> Tally {
        Tally::one(expected == found, tell, || {
            format!("{what}: field {}, {} nodes, node {node}, expected {expected}, found {found}", self.number, self.nodes)
        })
    }

    /// The tally of one comparison of rows.
    fn same_row(&self, tell: bool, node: u32, expected: Row, found: Row) -> Tally {
        Tally::one(expected == found, tell, || {
            let (a, b) = (expected, found);
            let start = format!("row: field {}, {} nodes, node {node}", self.number, self.nodes);
            let expected = format!("expected label {}, predecessor {}, list {}, hops {}", a.label, a.predecessor, a.list, a.hops);
            format!("{start}, {expected}, found {}, {}, {}, {}", b.label, b.predecessor, b.list, b.hops)
        })
    }
}

/// Losses of reports in a stretch.
struct Loss {
    seed: Seed,
    /// W, from 1 to 8.
    window: u32,
    /// Which losses: 0 none, by full rounds; 1 and 2 all that can be, together; 3 the same after eight rounds; then few or many.
    pattern: u32,
}

impl Loss {
    /// W from 1 to 4, at times to 8; full rounds have W 1.
    fn new(seed: Seed) -> Loss {
        let pattern = seed.pick(1, 7);
        let most = if seed.chance(3, 8) { 8 } else { 4 };
        let window = if pattern == 0 { 1 } else { seed.pick(2, most) + 1 };
        Loss { seed: seed.part(4), window, pattern }
    }

    /// The arcs that a receiver hears by chance in round t.
    fn lucky(&self, r: u32, t: u32) -> u32 {
        let place = u64::from(t * 32 + r);
        let (a, b) = (self.seed.bits(place), self.seed.bits(30_000 + place));
        match self.pattern {
            0..=2 => 0,
            3 if t < 8 => a,
            3 => 0,
            4 => a & b,
            5 => a,
            _ => a | b,
        }
    }

    fn stops(&self, n: u32) -> Stops {
        let all = (n - 1) * self.window;
        let midway = if all == 0 || self.seed.chance(6, 32) { self.seed.pick(5, all) } else { all - 1 };
        let settled = if n < 3 { all } else { (2 * n - 4) * self.window + 1 };
        Stops { midway, all, later: all + self.seed.pick(7, all), settled, last: 2 * all + self.seed.pick(8, 4) }
    }
}

/// After how many rounds of a stretch its comparisons come.
struct Stops {
    /// Half the time just before (n-1)W.
    midway: u32,
    /// (n-1)W: labels are real.
    all: u32,
    /// From there to 2(n-1)W.
    later: u32,
    /// (2n-4)W + 1, or (n-1)W where n is 1 or 2: rows are settled.
    settled: u32,
    /// 2(n-1)W and a few more.
    last: u32,
}

/// A stretch: its arcs, its losses, and what was heard in the last eight rounds by receiver and round modulo 8.
struct Stretch {
    arcs: [u32; 32],
    loss: Loss,
    past: [[u32; 8]; 32],
}

impl Stretch {
    /// The marks of round t: what is heard by chance, and every arc that was not heard in the W - 1 rounds before.
    fn marks(&mut self, n: u32, t: u32) -> [u32; 32] {
        let mut marks = [0; 32];
        for r in 0..n {
            let past = &mut self.past[r as usize];
            let recent = (1..self.loss.window).fold(0, |heard, k| heard | past[(t + 8 - k) as usize % 8]);
            let heard = self.arcs[r as usize] & (self.loss.lucky(r, t) | !recent);
            past[t as usize % 8] = heard;
            marks[r as usize] = heard;
        }
        marks
    }
}

// ---- trials

/// Steps of a search for a route: where it must be decided, and midway.
const STEPS: u32 = 4_000_000;
const FEW_STEPS: u32 = 40_000;

/// A field with its network, in the core and by the program's own costs.
struct Trial<'a> {
    field: Field,
    net: Network,
    costs: Costs,
    counts: &'a mut Counts,
}

impl Trial<'_> {
    /// Two or three stretches.
    fn run(&mut self) {
        self.plant();
        for k in 0..2 + self.field.seed.pick(4, 2) {
            let seed = self.field.seed.part(20 + u64::from(k));
            if 0 < k {
                self.change_some(seed.part(1));
            }
            if !seed.part(2).chance(1, 24) {
                self.place_rows(seed.part(2));
                self.place_reports(seed.part(2));
            }
            self.refuse_calls(seed.part(3));
            if seed.chance(4, 24) {
                self.reopen();
            }
            self.stretch(seed.part(6));
        }
    }

    // ---- changes

    /// Sets a pair to one of a kind, in the core and in the costs. By the rule a removed and a new arc hold no report.
    fn set(&mut self, seed: Seed, (make, least, many): Kind, s: u32, r: u32) {
        let setting = make(least + seed.pick(1, many));
        let (old, new) = (self.costs.get(s, r), setting.cost());
        let held = if old == 0 || new == 0 { 0 } else { self.net.held(s, r) };
        self.costs.set(s, r, new);
        self.counts.changes += if setting.ask(&mut self.net, s, r) != 0 {
            self.field.same(self.field.tell, "change refused", r, 0, 1)
        } else {
            self.field.same(self.field.tell, "report after a change", r, held, self.net.held(s, r))
        };
    }

    /// The arcs at first.
    fn plant(&mut self) {
        for (s, r) in pairs() {
            if self.field.is_pair(s, r) && self.field.planted(s, r) {
                let seed = self.field.seed.part(3000 + u64::from(s * 32 + r));
                self.set(seed, self.field.kind(s, r), s, r);
            }
        }
    }

    /// Changes fewer pairs than there are nodes, half of them as the field's kind is.
    fn change_some(&mut self, seed: Seed) {
        let n = self.field.nodes;
        for k in 0..seed.pick(1, n) {
            let seed = seed.part(10 + u64::from(k));
            let s = seed.pick(2, n);
            let r = seed.other(3, n, s);
            let kind = match seed.pick(4, 8) as usize {
                k @ 0..=3 => SETTINGS[CHANGES + k],
                _ => self.field.kind(s, r),
            };
            self.set(seed, kind, s, r);
        }
    }

    // ---- garbage: rows and reports that are within limits and otherwise arbitrary

    /// Sets rows of relays. Some get label 1 and a list of themselves alone: nobody, all, or the last on the field's line.
    fn place_rows(&mut self, seed: Seed) {
        let n = self.field.nodes;
        for y in (0..n).filter(|&y| y != self.field.origin) {
            let own = seed.part(100 + u64::from(y));
            let from = own.other(6, n, y);
            let lured = match seed.pick(1, 5) {
                0 => true,
                1 | 2 => self.field.place(y) + 1 == n,
                _ => false,
            };
            let number = if lured {
                self.net.place_row(y, 1, from, bit(y))
            } else if own.chance(7, seed.pick(2, 4) * 24) {
                self.net.place_row(y, label(own), from, list(own, n, y))
            } else {
                continue;
            };
            self.counts.garbage += self.field.same(self.field.tell, "placed row", y, 0, number.into());
        }
    }

    /// Sets reports of arcs.
    fn place_reports(&mut self, seed: Seed) {
        for (s, r) in pairs() {
            let own = seed.part(200 + u64::from(s * 32 + r));
            if self.costs.get(s, r) != 0 && own.chance(7, seed.pick(3, 4) * 24) {
                let label = if own.chance(8, 4) { 0 } else { label(own) };
                let number = self.net.place_report(s, r, label, list(own, self.field.nodes, s));
                self.counts.garbage += self.field.same(self.field.tell, "placed report", r, 0, number.into());
            }
        }
    }

    // ---- refused calls

    /// The tally of a call that must be refused with a number and leave the network: 256 is added where it does not.
    fn refused(&mut self, expected: u64, call: impl FnOnce(&mut Network) -> u8) -> Tally {
        let before = self.net.clone();
        let number = call(&mut self.net);
        let left = if self.net == before { 0 } else { 256 };
        self.field.same(self.field.tell, "refused call", 0, expected, left + u64::from(number))
    }

    fn refuse_calls(&mut self, seed: Seed) {
        self.refuse_change(seed.part(1));
        if 1 < self.field.nodes {
            self.refuse_row(seed.part(2));
            self.refuse_report(seed.part(3));
        }
    }

    /// A change or a grade with a node out of range, a pair of one node, a cost or a grade out of range: 3.
    fn refuse_change(&mut self, seed: Seed) {
        let n = self.field.nodes;
        let y = seed.pick(2, n);
        let x = seed.other(3, n, y);
        let beyond = n + seed.pick(4, 40);
        let more = seed.pick(5, 8);
        let (s, r, setting) = match seed.pick(1, 5) {
            0 => (beyond, x, Cost(5 + more)),
            1 => (y, beyond, Cost(5 + more)),
            2 => (y, y, Cost(5 + more)),
            3 => (y, x, Cost(65_536 + more)),
            _ => (y, x, Grade(16 + more)),
        };
        let tally = self.refused(3, |net| setting.ask(net, s, r));
        self.counts.refused += tally;
    }

    /// A row with a fault: a node not below n is 3, the origin 5, a wrong label 10, a wrong predecessor 11, a wrong list 12; the first of several decides.
    fn refuse_row(&mut self, seed: Seed) {
        let (n, origin) = (self.field.nodes, self.field.origin);
        let first = [3, 5, 10, 11, 12][seed.pick(1, 5) as usize];
        let y = match first {
            3 => n + seed.pick(2, 40),
            5 => origin,
            _ => seed.other(2, n, origin),
        };
        let own = seed.part(3);
        let label = if faulty(seed, first, 10) { WRONG_LABELS[seed.pick(4, 3) as usize] } else { label(own) };
        let from = if faulty(seed, first, 11) { [y, n, u32::MAX][seed.pick(5, 3) as usize] } else { seed.other(5, n, y) };
        let list = if faulty(seed, first, 12) { wrong_list(own, n, y % n) } else { list(own, n, y % n) };
        let tally = self.refused(first, |net| net.place_row(y, label, from, list));
        self.counts.refused += tally;
    }

    /// A report with a fault: a pair of one node is 3, no arc 5, a wrong label 10, a wrong list 12; the first of several decides.
    fn refuse_report(&mut self, seed: Seed) {
        let n = self.field.nodes;
        let s = seed.pick(1, n);
        let r = if seed.chance(3, 8) { s } else { seed.other(2, n, s) };
        let first = match self.costs.get(s, r) {
            _ if s == r => 3,
            0 => 5,
            _ if seed.chance(4, 32) => 10,
            _ => 12,
        };
        let own = seed.part(5);
        let label = if faulty(seed, first, 10) { WRONG_LABELS[1 + seed.pick(6, 2) as usize] } else { label(own) };
        let list = if faulty(seed, first, 12) { wrong_list(own, n, s) } else { list(own, n, s) };
        let tally = self.refused(first, |net| net.place_report(s, r, label, list));
        self.counts.refused += tally;
    }

    /// At times a refused round: on 31 words of marks, out of range besides; or with a mark that may not be.
    fn refuse_round(&mut self, arcs: &[u32; 32], seed: Seed) {
        match seed.pick(6, 64) {
            0 => {
                let tally = self.refused(1, |net| net.round(&[u32::MAX; 31]));
                self.counts.rounds += tally;
            }
            1..=3 => self.refuse_mark(arcs, seed),
            _ => {}
        }
    }

    /// A round with a mark of a node on itself or of a node that is not below n: 3; or without an arc: 7.
    fn refuse_mark(&mut self, arcs: &[u32; 32], seed: Seed) {
        let n = self.field.nodes;
        let y = seed.pick(1, n);
        let x = seed.other(2, n, y);
        let beyond = n + seed.pick(3, 8);
        let fault = if beyond < MOST_NODES { seed.pick(4, 3) } else { 0 };
        let stray = seed.chance(5, 32);
        let (s, r) = match fault {
            _ if !stray => (y, x),
            0 => (y, y),
            1 => (beyond, x),
            _ => (y, beyond),
        };
        let mut marks = *arcs;
        if !stray && (s == r || has(marks[r as usize], s)) {
            return;
        }
        marks[r as usize] |= bit(s);
        let tally = self.refused(if stray { 3 } else { 7 }, |net| net.round(&marks));
        self.counts.rounds += tally;
    }

    // ---- stretches

    /// The rounds of a stretch, and its comparisons.
    fn stretch(&mut self, seed: Seed) {
        self.counts.stretches += 1;
        self.check_costs();
        let settled = Settled::calculate(&self.costs, self.field.origin);
        self.counts.ties += self.ties(&settled);
        let loss = Loss::new(seed);
        let stops = loss.stops(self.field.nodes);
        let past = [[if loss.pattern == 1 { u32::MAX } else { 0 }; 8]; 32];
        let mut stretch = Stretch { arcs: self.costs.arcs(), loss, past };
        self.check(&settled, &stops, 0);
        for t in 0..stops.last {
            self.round(&mut stretch, t);
            self.check(&settled, &stops, t + 1);
        }
    }

    /// Round t, and before it at times a refused one.
    fn round(&mut self, stretch: &mut Stretch, t: u32) {
        self.refuse_round(&stretch.arcs, stretch.loss.seed.part(61_000 + u64::from(t)));
        let number = match stretch.loss.pattern {
            0 => self.net.full_round(),
            _ => self.net.round(&stretch.marks(self.field.nodes, t)),
        };
        self.counts.rounds += Tally { wrong: u64::from(number != 0), ..Tally::OTHER };
    }

    /// After t rounds: labels midway, where some are false and some not decided; labels from (n-1)W rounds on; rows there and one round before all are
    /// settled, where some are not; settled rows.
    fn check(&mut self, settled: &Settled, stops: &Stops, t: u32) {
        let tell = self.counts.tell();
        if t == stops.midway {
            self.counts.midway += self.labels(settled, false, FEW_STEPS);
        }
        if t == stops.all || t == stops.later {
            self.counts.labels += self.labels(settled, tell, STEPS);
        }
        if t == stops.all {
            self.counts.early += self.rows(settled, false);
        }
        if 2 < self.field.nodes && t + 1 == stops.settled {
            self.counts.nearly += self.rows(settled, false);
        }
        if stops.settled <= t {
            self.counts.rows += self.rows(settled, tell);
        }
    }

    // ---- comparisons; in each the first difference is told

    /// The costs of all pairs; 3 times 65,536 is what reading answers where they are no pair of nodes.
    fn check_costs(&mut self) {
        let mut tally = Tally::default();
        for (s, r) in pairs() {
            let expected = if self.field.is_pair(s, r) { self.costs.get(s, r).into() } else { 3 * 65_536 };
            tally += self.field.same(self.field.tell && tally.wrong == 0, "cost", r, expected, self.net.cost(s, r));
        }
        self.counts.costs += tally;
    }

    /// The relays whose givers differ in fewest arcs; the further kind are those of them whose predecessor is not the lowest giver.
    fn ties(&self, settled: &Settled) -> Tally {
        let mut tally = Tally::default();
        for y in 0..self.field.nodes {
            let givers: Vec<_> = settled.givers(&self.costs, y).collect();
            if givers.iter().any(|giver| giver.0 != givers[0].0) {
                tally += Tally { tried: 1, wrong: 0, other: u64::from(givers[0].1 != settled.row(y).predecessor) };
            }
        }
        tally
    }

    /// Whether the label of each relay that has a route is the cost of a real route.
    fn labels(&self, settled: &Settled, tell: bool, steps: u32) -> Tally {
        let mut tally = Tally::default();
        for y in 0..self.field.nodes {
            let row = self.net.row(y);
            if row.predecessor == NOBODY {
                continue;
            }
            tally += match Search::decide(&self.costs, settled, y, row.label, row.list, steps) {
                Some(true) => Tally { tried: 1, ..Tally::default() },
                Some(false) => self.field.same(tell && tally.wrong == 0, "label without a route", y, settled.least(y).into(), row.label.into()),
                None => Tally { tried: 1, ..Tally::OTHER },
            };
        }
        tally
    }

    /// Whether each row is the settled one; the further kind has no route.
    fn rows(&self, settled: &Settled, tell: bool) -> Tally {
        let mut tally = Tally::default();
        for y in 0..self.field.nodes {
            tally += self.field.same_row(tell && tally.wrong == 0, y, settled.row(y), self.net.row(y));
            if settled.row(y).list == 0 {
                tally += Tally::OTHER;
            }
        }
        tally
    }

    /// Writes the image, opens it again, whatever stands after it, and compares length, rows and reports. The field goes on with the network that was
    /// opened.
    fn reopen(&mut self) {
        let mut room = [37; calls::LONGEST];
        let written = self.net.image(&mut room);
        let (other, used) = Network::open(&room);
        self.counts.reopened += Tally::OTHER;
        self.counts.reopened += self.field.same(self.field.tell, "length of an image", 0, written, used);
        let mut tally = Tally::default();
        for (s, r) in pairs() {
            let tell = self.field.tell && tally.wrong == 0;
            tally += if s == r {
                self.field.same_row(tell, r, self.net.row(r), other.row(r))
            } else {
                self.field.same(tell, "reopened report", r, self.net.held(s, r), other.held(s, r))
            };
        }
        self.counts.reopened += tally;
        self.net = other;
    }
}

fn main() {
    let arguments: Vec<u64> = std::env::args().skip(1).map(|word| word.parse().expect("arguments: a seed and a count")).collect();
    let seed = arguments.first().copied().unwrap_or(1);
    let count = arguments.get(1).copied().unwrap_or(20_000);
    let mut counts = Counts::default();
    let mut at = Seed(seed);
    for k in 0..count {
        at = at.part(k);
        let field = Field::new(at, k + 1, counts.tell());
        let net = Network::fresh(field.nodes, field.origin);
        Trial { field, net, costs: Costs::none(), counts: &mut counts }.run();
    }
    counts.print(seed, count);
    std::process::exit(if counts.differences() == 0 { 0 } else { 1 });
}
