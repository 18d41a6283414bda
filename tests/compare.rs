// The C call gerqalli_run beside the independent implementation in reference.rs: every answer, every byte of the output and the bytes around it.
// Arguments: a seed and a count of random runs. The last line is 'compare: N runs, M differences'; the exit status is 0 where M is 0 and every
// number that the call can give, 0 to 7 and 10 to 12, and every refusal that a kind of record can have was seen, and no others.

mod generate;
#[allow(dead_code)] // the table of `routes` is compared elsewhere
mod reference;

use generate::Random;
use reference::Refusal;
use std::collections::BTreeMap;

/// The call and the memory that is lent to it. Nothing else here is unsafe.
mod lent {
    use std::ffi::c_void;
    use std::sync::atomic::{AtomicUsize, Ordering};

    extern "C" {
        fn gerqalli_run(run: *const u8, run_length: usize, out: *mut u8, out_length: usize) -> u64;
        fn mmap(address: *mut c_void, length: usize, access: i32, flags: i32, file: i32, offset: i64) -> *mut c_void;
        fn mprotect(address: *mut c_void, length: usize, access: i32) -> i32;
        fn signal(number: i32, handler: usize) -> usize;
        fn write(file: i32, bytes: *const u8, length: usize) -> isize;
        fn _exit(status: i32) -> !;
    }

    const PAGE: usize = 4096;
    const NO_ACCESS: i32 = 0;
    const READ: i32 = 1;
    const READ_WRITE: i32 = 3;
    /// MAP_PRIVATE, MAP_ANONYMOUS, MAP_NORESERVE
    const FLAGS: i32 = 0x2 | 0x20 | 0x4000;

    /// The number of the call that is under way.
    static CALL: AtomicUsize = AtomicUsize::new(0);

    /// Readable and writable memory with an inaccessible page before and after it.
    pub struct Pages {
        start: *mut u8,
        length: usize,
    }

    impl Pages {
        /// `length` is a multiple of the page length. `None` where the system has no such memory.
        pub fn new(length: usize) -> Option<Pages> {
            assert!(length % PAGE == 0);
            // SAFETY: a new mapping of whole pages, of which all but the first and the last are made accessible.
            unsafe {
                let all = mmap(std::ptr::null_mut(), length + 2 * PAGE, NO_ACCESS, FLAGS, -1, 0);
                if all as isize == -1 {
                    return None;
                }
                let start = all.cast::<u8>().add(PAGE);
                (mprotect(start.cast(), length, READ_WRITE) == 0).then_some(Pages { start, length })
            }
        }

        pub fn bytes(&mut self) -> &mut [u8] {
            // SAFETY: the pages are accessible, zeroed at first and not unmapped.
            unsafe { std::slice::from_raw_parts_mut(self.start, self.length) }
        }

        /// Calls `work` while no byte of these pages can be written.
        pub fn read_only<T>(&mut self, work: impl FnOnce(&[u8]) -> T) -> T {
            // SAFETY: the pages stay readable, and are writable again before they can be borrowed as such.
            unsafe {
                assert!(mprotect(self.start.cast(), self.length, READ) == 0);
                let answer = work(std::slice::from_raw_parts(self.start, self.length));
                assert!(mprotect(self.start.cast(), self.length, READ_WRITE) == 0);
                answer
            }
        }
    }

    pub fn call(run: &[u8], out: &mut [u8]) -> u64 {
        CALL.fetch_add(1, Ordering::Relaxed);
        // SAFETY: what the header asks of a caller.
        unsafe { gerqalli_run(run.as_ptr(), run.len(), out.as_mut_ptr(), out.len()) }
    }

    pub fn calls() -> usize {
        CALL.load(Ordering::Relaxed)
    }

    /// Says which call touched memory outside of what it was lent, or otherwise died, and ends the program.
    extern "C" fn died(number: i32) {
        let mut digits = [b' '; 20];
        let (mut rest, mut at) = (calls(), digits.len());
        while at > 0 && (rest > 0 || at == digits.len()) {
            at -= 1;
            digits[at] = b'0' + (rest % 10) as u8;
            rest /= 10;
        }
        let what: &[u8] = match number {
            7 | 11 => b"compare: memory outside of what was lent was touched in call ",
            _ => b"compare: the program died in call ",
        };
        // SAFETY: only calls that a signal handler may make.
        unsafe {
            for part in [what, &digits[at..], b"\n"] {
                write(2, part.as_ptr(), part.len());
            }
            _exit(3)
        }
    }

    /// Has `died` called on SIGILL, SIGABRT, SIGBUS, SIGFPE and SIGSEGV, and ends the program where no call has ended for a minute.
    pub fn watch() {
        for number in [4, 6, 7, 8, 11] {
            // SAFETY: `died` is a handler that stays.
            unsafe { signal(number, died as extern "C" fn(i32) as usize) };
        }
        std::thread::spawn(|| loop {
            let before = calls();
            std::thread::sleep(std::time::Duration::from_secs(60));
            if calls() == before {
                println!("compare: call {before} has not ended for a minute");
                std::process::exit(3);
            }
        });
    }
}

/// The bytes lent for outputs: more than the longest image, with room on both sides.
const OUTPUT: usize = 10 * 4096;
/// The bytes lent for runs: short ones, and those around the longest.
const SHORT: usize = 10 * 4096;
const LONG: usize = reference::MAX_RUN + 4 * 4096;

/// The numbers that the call can give; 8 and 9 are the route call's.
const NUMBERS: [u64; 11] = [0, 1, 2, 3, 4, 5, 6, 7, 10, 11, 12];

/// What can be refused: in the image or among the events, the kind of the record (`None`: no byte), the number.
type Sort = (bool, Option<u8>, u8);
/// Stands for every kind above 7.
const UNKNOWN: u8 = 8;

struct Compare {
    random: Random,
    short: lent::Pages,
    long: lent::Pages,
    output: lent::Pages,
    /// Two fillings of the output that differ at each byte.
    fillings: [Vec<u8>; 2],
    kinds: BTreeMap<&'static str, usize>,
    /// How often each number was to be given.
    numbers: BTreeMap<u64, usize>,
    sorts: BTreeMap<Sort, usize>,
    runs: usize,
    longest: usize,
    differences: usize,
}

impl Compare {
    fn new(seed: u64) -> Compare {
        let pages = |length| lent::Pages::new(length).expect("no memory");
        let filling = |first: u8| (0..OUTPUT).map(|at| (at as u8).wrapping_mul(29) ^ (at >> 8) as u8 ^ first).collect();
        Compare {
            random: Random(seed),
            short: pages(SHORT),
            long: pages(LONG),
            output: pages(OUTPUT),
            fillings: [filling(0), filling(0xff)],
            kinds: BTreeMap::new(),
            numbers: BTreeMap::new(),
            sorts: BTreeMap::new(),
            runs: 0,
            longest: 0,
            differences: 0,
        }
    }

    /// Compares one run, with outputs of two lengths.
    fn run(&mut self, kind: &'static str, run: &[u8]) {
        let result = self.expected(kind, run);
        let exact = result.as_ref().map_or(60, |image| image.len());
        let some = self.random.below(OUTPUT - 4096);
        let rooms = [0, 1, exact - 1, exact, exact, exact, exact + 1, 16_216, 16_217, 16_218, 20_000, some];
        for _ in 0..2 {
            let room = self.random.pick(&rooms);
            self.call(run, &result, room);
        }
    }

    /// Compares one run, with outputs of many lengths, each a few times.
    fn run_fully(&mut self, kind: &'static str, run: &[u8]) {
        let result = self.expected(kind, run);
        let exact = result.as_ref().map_or(60, |image| image.len());
        for room in [0, 1, 2, 3, exact / 2, exact - 1, exact, exact + 1, 16_216, 16_217, 16_218, OUTPUT - 4096] {
            for _ in 0..4 {
                self.call(run, &result, room);
            }
        }
    }

    /// What the reference answers; counts the run.
    fn expected(&mut self, kind: &'static str, run: &[u8]) -> Result<Vec<u8>, Refusal> {
        *self.kinds.entry(kind).or_default() += 1;
        self.runs += 1;
        let result = reference::call(run);
        match &result {
            Ok(image) => self.longest = self.longest.max(image.len()),
            Err(Refusal { number, place }) if run.len() <= reference::MAX_RUN => {
                let in_image = reference::open(run).is_err();
                let kind = run.get(*place).map(|&kind| if kind > 7 { UNKNOWN } else { kind });
                *self.sorts.entry((in_image, kind, *number)).or_default() += 1;
            }
            Err(_) => (),
        }
        result
    }

    /// Calls once with an output of `room` bytes and compares the answer and every byte lent.
    fn call(&mut self, run: &[u8], result: &Result<Vec<u8>, Refusal>, room: usize) {
        let filling = &self.fillings[self.random.below(2)];
        let output = self.output.bytes();
        output.copy_from_slice(filling);
        // Each of the two begins at an inaccessible page, ends at one, or lies between.
        let mut place = |all: usize, length: usize| match self.random.below(4) {
            0 => 0,
            1 | 2 => all - length,
            _ => self.random.below(all - length + 1),
        };
        let from = place(OUTPUT, room);
        let pages = if run.len() <= SHORT { &mut self.short } else { &mut self.long };
        let start = place(pages.bytes().len(), run.len());
        pages.bytes()[start..start + run.len()].copy_from_slice(run);
        let answer = pages.read_only(|bytes| lent::call(&bytes[start..start + run.len()], &mut output[from..from + room]));

        let expected = reference::answer(result, room);
        *self.numbers.entry(expected % 32).or_default() += 1;
        let image: &[u8] = match result {
            Ok(image) if image.len() <= room => image,
            _ => &[],
        };
        let (before, rest) = output.split_at(from);
        let (written, after) = rest.split_at(image.len());
        if answer != expected {
            self.difference(run, room, &format!("answers {} at {}, not {} at {}", answer % 32, answer / 32, expected % 32, expected / 32));
        } else if written != image {
            self.difference(run, room, "the image differs");
        } else if before != &filling[..from] || after != &filling[from + image.len()..] {
            self.difference(run, room, "a byte outside of the image is written");
        }
    }

    fn difference(&mut self, run: &[u8], room: usize, what: &str) {
        self.differences += 1;
        let shown: String = run.iter().take(400).map(|byte| format!("{byte:02x}")).collect();
        println!("difference in call {}, run of {} bytes, output of {room}: {what}\n  run {shown}", lent::calls(), run.len());
        if self.differences == 10 {
            println!("compare: stopped at the tenth difference\ncompare: {} runs, {} differences", self.runs, self.differences);
            std::process::exit(1);
        }
    }

    /// A run whose image or refusal was worked out by hand: the reference and the call must both give it.
    fn known(&mut self, run: &str, known: Result<Vec<u8>, Refusal>) {
        let run = hex(run);
        if reference::call(&run) != known {
            self.difference(&run, 0, "the reference gives something else than was worked out by hand");
        }
        self.run_fully("worked out by hand", &run);
    }

    /// Every value of every byte of a run, and every cut of it.
    fn every_byte(&mut self, run: &[u8]) {
        for at in 0..run.len() {
            self.run("cut at every place", &run[..at]);
            for value in (0..=255).filter(|&value| value != run[at]) {
                let mut damaged = run.to_vec();
                damaged[at] = value;
                self.run("every value of every byte", &damaged);
            }
        }
    }

    /// The largest images: their length, some cuts, events after them.
    fn largest(&mut self) {
        let made = generate::dense(&mut self.random);
        let image = made.bytes();
        if image.len() != 16_217 || reference::call(&image).as_ref() != Ok(&image) {
            self.difference(&image, 0, "the largest image has not 16,217 bytes");
        }
        self.run_fully("largest image", &image);
        for _ in 0..12 {
            let at = self.random.below(image.len());
            self.run("largest image", &image[..at]);
            let damaged = generate::wrong_fields(&mut self.random, &made);
            self.run("largest image", &damaged);
        }
        let mut made = made;
        for _ in 0..4 {
            made.event(&mut self.random, 100);
            self.run("largest image", &made.bytes());
        }
    }

    /// One random run, whole or damaged in some way.
    fn random_run(&mut self) {
        let nodes = generate::some_nodes(&mut self.random);
        let made = generate::run(&mut self.random, nodes, 12);
        let run = made.bytes();
        match self.random.below(12) {
            0 => {
                let image = generate::image(&mut self.random, nodes).bytes();
                if reference::call(&image).as_ref() != Ok(&image) {
                    self.difference(&image, 0, "the reference alters an image without events");
                }
                self.run("image without events", &image);
            }
            1..=3 => self.run("image and events", &run),
            4 if run.len() < 250 && self.random.once_in(4) => (0..run.len()).for_each(|at| self.run("cut at every place", &run[..at])),
            4 => {
                let at = self.random.below(run.len());
                self.run("cut at some place", &run[..at]);
            }
            5..=7 => {
                let damaged = generate::wrong_fields(&mut self.random, &made);
                self.run("fields at their limits", &damaged);
            }
            8 | 9 => {
                let other = generate::run(&mut self.random, nodes, 12);
                let damaged = generate::wrong_records(&mut self.random, &made, &other);
                self.run("records moved, repeated, inserted, deleted", &damaged);
            }
            10 => {
                let damaged = generate::wrong_bytes(&mut self.random, &run);
                self.run("bytes changed, inserted, deleted", &damaged);
            }
            _ => {
                let bytes = generate::any_bytes(&mut self.random);
                self.run("bytes without order", &bytes);
            }
        }
    }

    /// Runs of about the longest length that is taken, and longer ones.
    fn long_runs(&mut self) {
        let change = [2, 0, 1, 0, 9];
        let mut runs = Vec::new();
        for length in [reference::MAX_RUN - 1, reference::MAX_RUN, reference::MAX_RUN + 1, reference::MAX_RUN + 2, LONG] {
            // An image of one node and rounds; an image of two nodes, a round and changes, of which the last is cut or whole; a wrong first kind.
            let mut rounds = vec![1, 1, 0, 0];
            rounds.resize(length, 6);
            let mut changes = vec![1, 2, 0, 0, 6];
            changes.extend(change.iter().cycle().take(length - 5));
            runs.extend([rounds, changes, vec![0; length]]);
        }
        let mut changes = vec![1, 2, 0, 0];
        changes.extend(change.repeat((reference::MAX_RUN - 4) / 5));
        changes.resize(reference::MAX_RUN, 6);
        runs.push(changes);
        for run in runs {
            let result = self.expected("runs around 1,048,576 bytes", &run);
            for room in [0, 16_217] {
                self.call(&run, &result, room);
            }
        }
    }

    /// A run and an output above 4 GiB: their lengths are not cut to 32 bits.
    fn huge(&mut self) {
        let kind = "lengths above 4 GiB";
        let image = [1, 1, 0, 0];
        let Some(mut pages) = lent::Pages::new((1 << 32) + 4096) else {
            println!("not tried: {kind}; the system has no such memory");
            return;
        };
        for length in [(1 << 32) + 4, (1 << 32) + 1, 1 << 32] {
            *self.kinds.entry(kind).or_default() += 2;
            self.runs += 2;
            pages.bytes()[..4].copy_from_slice(&image);
            let answer = pages.read_only(|bytes| lent::call(&bytes[..length], &mut self.output.bytes()[..0]));
            if answer != 3 {
                self.difference(&image, 0, &format!("a run of {length} bytes that begins so is answered {answer}"));
            }
            pages.bytes()[..8].fill(0xa5);
            let answer = lent::call(&image, &mut pages.bytes()[..length]);
            if answer != 32 * 4 || pages.bytes()[..8] != [1, 1, 0, 0, 0xa5, 0xa5, 0xa5, 0xa5] {
                self.difference(&image, length, &format!("answered {answer}"));
            }
        }
    }

    /// Prints the counts; answers whether all is as it should be.
    fn report(&self) -> bool {
        for (kind, count) in &self.kinds {
            println!("{count:>9} {kind}");
        }
        println!("longest image: {} bytes", self.longest);
        println!("calls by number: {}", self.numbers.iter().map(|(number, count)| format!("{number}: {count}")).collect::<Vec<_>>().join(", "));
        let numbers = self.numbers.keys().copied().eq(NUMBERS);
        if !numbers {
            println!("the numbers are not just {NUMBERS:?}");
        }
        let wanted = wanted();
        let unseen: Vec<_> = wanted.iter().filter(|sort| !self.sorts.contains_key(sort)).collect();
        let strange: Vec<_> = self.sorts.keys().filter(|sort| !wanted.contains(sort)).collect();
        println!(
            "refusals by section, kind of record and number: {} of {} seen, {} times the rarest",
            wanted.len() - unseen.len(),
            wanted.len(),
            self.sorts.values().min().unwrap_or(&0)
        );
        for sort in &unseen {
            println!("never seen (in the image, kind, number): {sort:?}");
        }
        for sort in &strange {
            println!("not expected to be possible (in the image, kind, number): {sort:?}");
        }
        println!("compare: {} calls", lent::calls());
        println!("compare: {} runs, {} differences", self.runs, self.differences);
        self.differences == 0 && numbers && unseen.is_empty() && strange.is_empty()
    }
}

/// All that can be refused.
fn wanted() -> Vec<Sort> {
    let mut sorts = vec![(true, None, 1)];
    let in_image: [(u8, &[u8]); 9] = [
        (0, &[2]),
        (1, &[1, 2, 3]),
        (2, &[1, 2, 3, 4]),
        (3, &[1, 2, 3, 4, 5, 10, 11, 12]),
        (4, &[1, 2, 3, 4, 5, 10, 12]),
        (5, &[2]),
        (6, &[2]),
        (7, &[2]),
        (UNKNOWN, &[2]),
    ];
    let events: [(u8, &[u8]); 8] = [(0, &[2]), (1, &[2]), (2, &[1, 3]), (3, &[2]), (4, &[2]), (5, &[1, 3, 7]), (7, &[1, 3]), (UNKNOWN, &[2])];
    for (kind, numbers) in in_image {
        sorts.extend(numbers.iter().map(|&number| (true, Some(kind), number)));
    }
    for (kind, numbers) in events {
        sorts.extend(numbers.iter().map(|&number| (false, Some(kind), number)));
    }
    sorts
}

/// The bytes that a text gives in hexadecimal; blanks don't count, and `*` stands for 32 words of marks without a mark.
fn hex(text: &str) -> Vec<u8> {
    let digits: Vec<u32> = text.replace('*', &"00".repeat(128)).chars().filter_map(|digit| digit.to_digit(16)).collect();
    digits.chunks(2).map(|pair| (pair[0] * 16 + pair[1]) as u8).collect()
}

/// What was worked out by hand: the image, or number and place.
enum Known {
    Image(&'static str),
    Refused(u8, usize),
}
use Known::{Image, Refused};

impl Known {
    fn result(&self) -> Result<Vec<u8>, Refusal> {
        match *self {
            Image(image) => Ok(hex(image)),
            Refused(number, place) => Err(Refusal { number, place }),
        }
    }
}

/// Document 01's four-node field.
const FIELD: &str = "010400 0200010001 0200030004 0201000001 0201020001 0202010001 0202030001 0203000004 0203020001 00";
/// Its arcs after the cut.
const LEFT: &str = "0200030004 0201020001 0202010001 0202030001 0203000004 0203020001";

/// Document 01's worked cases: events of the four-node field; the arcs, rows and reports that they lead to.
const FIELD_CASES: [(&str, &str, &str, &str); 5] = [
    (
        "06060606",
        "0200010001 0200030004 0201000001 0201020001 0202010001 0202030001 0203000004 0203020001",
        "0301 00000001 00 00000003  0302 00000002 01 00000007  0303 00000003 02 0000000f",
        "040001 00000000 00000001  040003 00000000 00000001  040100 00000001 00000003  040102 00000001 00000003
         040201 00000002 00000007  040203 00000002 00000007  040300 00000003 0000000f  040302 00000003 0000000f",
    ),
    (
        "06060606 0200010000 0201000000 06",
        LEFT,
        "0302 00000002 01 00000007  0303 00000003 02 0000000f",
        "040003 00000000 00000001  040102 00000001 00000003  040201 00000002 00000007
         040203 00000002 00000007  040300 00000003 0000000f  040302 00000003 0000000f",
    ),
    (
        "06060606 0200010000 0201000000 060606",
        LEFT,
        "0303 00000004 00 00000009",
        "040003 00000000 00000001  040300 00000003 0000000f  040302 00000003 0000000f",
    ),
    (
        "06060606 0200010000 0201000000 0606060606",
        LEFT,
        "0301 00000006 02 0000000f  0302 00000005 03 0000000d  0303 00000004 00 00000009",
        "040003 00000000 00000001  040201 00000005 0000000d  040203 00000005 0000000d
         040300 00000004 00000009  040302 00000004 00000009",
    ),
    (
        "06060606 0200010000 0201000000 060606060606",
        LEFT,
        "0301 00000006 02 0000000f  0302 00000005 03 0000000d  0303 00000004 00 00000009",
        "040003 00000000 00000001  040102 00000006 0000000f  040201 00000005 0000000d
         040203 00000005 0000000d  040300 00000004 00000009  040302 00000004 00000009",
    ),
];

/// More that was worked out by hand: runs, and the image or the refusal.
const CASES: &[(&str, Known)] = &[
    // report 2,031,584 plus cost 1 is an offer, 2,031,585 plus 1 is none
    ("010300 0201020001 0401 02 001effe0 00000002 00 05*", Image("010300 0201020001 0302 001effe1 01 00000006 0401 02 001effe0 00000002 00")),
    ("010300 0201020001 0401 02 001effe1 00000002 00 05*", Image("010300 0201020001 0401 02 001effe1 00000002 00")),
    // equal offers from 1 and 2: 1
    (
        "010400 0201030002 0202030001 040103 00000005 00000002 040203 00000006 00000004 00 05*",
        Image("010400 0201030002 0202030001 0303 00000007 01 0000000a 040103 00000005 00000002 040203 00000006 00000004 00"),
    ),
    // equal offers, the report of 2 has fewer ones, though its list is the greater number: 2
    (
        "010400 0201030002 0202030001 040103 00000005 00000003 040203 00000006 00000004 00 05*",
        Image("010400 0201030002 0202030001 0303 00000007 02 0000000c 040103 00000005 00000003 040203 00000006 00000004 00"),
    ),
    // equal offers, two ones each, though the list of 2 is the lesser number: 1
    (
        "010400 0201030002 0202030001 040103 00000005 00000006 040203 00000006 00000005 00 05*",
        Image("010400 0201030002 0202030001 0303 00000007 01 0000000e 040103 00000005 00000006 040203 00000006 00000005 00"),
    ),
    // equal offers with three ones, two and two: the second
    (
        "010500 0201040001 0202040001 0203040001 040104 00000005 00000007 040204 00000005 00000006 040304 00000005 0000000a 00 05*",
        Image(
            "010500 0201040001 0202040001 0203040001 0304 00000006 02 00000016
             040104 00000005 00000007 040204 00000005 00000006 040304 00000005 0000000a 00",
        ),
    ),
    // a lesser offer with more ones, from 1 and from 2: the lesser
    (
        "010400 0201030001 0202030001 040103 00000005 00000007 040203 00000006 00000004 00 05*",
        Image("010400 0201030001 0202030001 0303 00000006 01 0000000f 040103 00000005 00000007 040203 00000006 00000004 00"),
    ),
    (
        "010400 0201030001 0202030001 040103 00000006 00000002 040203 00000005 00000007 00 05*",
        Image("010400 0201030001 0202030001 0303 00000006 02 0000000f 040103 00000006 00000002 040203 00000005 00000007 00"),
    ),
    // equal sums, but the report with fewer ones lists its receiver: no offer
    (
        "010400 0201030002 0202030001 040103 00000005 00000007 040203 00000006 0000000c 00 05*",
        Image("010400 0201030002 0202030001 0303 00000007 01 0000000f 040103 00000005 00000007 040203 00000006 0000000c 00"),
    ),
    // a lesser offer from 2: 2; costs are added in more than 16 bits
    (
        "010400 02010300ff 020203ffff 040103 000200ff 00000002 040203 00010000 00000004 00 05*",
        Image("010400 02010300ff 020203ffff 0303 0001ffff 02 0000000c 040103 000200ff 00000002 040203 00010000 00000004 00"),
    ),
    // a report listing its receiver: no offer; the old row plays no part
    ("010300 0201020001 0302 00000001 01 00000006 040102 00000005 00000006 00 05*", Image("010300 0201020001 040102 00000005 00000006 00")),
    // an unheard arc keeps its report; a heard one takes the sender's row, here none
    ("010300 0201020001 040102 00000005 00000002 00 05*", Image("010300 0201020001 0302 00000006 01 00000006 040102 00000005 00000002 00")),
    ("010300 0201020001 040102 00000005 00000002 00 06", Image("010300 0201020001 00")),
    // a set arc keeps its report, a removed one loses it, a new one starts empty, an absent one can be removed
    ("010300 0201020001 040102 00000005 00000002 00 0201020007", Image("010300 0201020007 040102 00000005 00000002 00")),
    ("010300 0201020001 040102 00000005 00000002 00 0201020000 0201020007", Image("010300 0201020007 00")),
    ("010300 00 0201020000 07010200", Image("010300 00")),
    // the origin need not be node 0, and its row is never written
    ("010201 0201000003 00 06", Image("010201 0201000003 0300 00000003 01 00000003 040100 00000000 00000002 00")),
    // grades
    ("010200 0200010001 00 07000100", Image("010200 00")),
    ("010200 00 07000101", Image("010200 0200010258 00")),
    ("010200 00 07000102", Image("010200 02000101e0 00")),
    ("010200 00 07000103", Image("010200 020001017c 00")),
    ("010200 00 07000104", Image("010200 020001012c 00")),
    ("010200 00 07000105", Image("010200 02000100f0 00")),
    ("010200 00 07000106", Image("010200 02000100be 00")),
    ("010200 00 07000107", Image("010200 0200010096 00")),
    ("010200 00 07000108", Image("010200 0200010078 00")),
    ("010200 00 07000109", Image("010200 020001005f 00")),
    ("010200 00 0700010a", Image("010200 020001004b 00")),
    ("010200 00 0700010b", Image("010200 020001003c 00")),
    ("010200 00 0700010c", Image("010200 0200010030 00")),
    ("010200 00 0700010d", Image("010200 0200010026 00")),
    ("010200 00 0700010e", Image("010200 020001001e 00")),
    ("010200 00 0700010f", Image("010200 0200010018 00")),
    ("010200 00 07000110", Refused(3, 4)),
    ("010200 00 070001ff", Refused(3, 4)),
    // n of 1 and 32 opens; 0 and 33 are refused, as is an origin not below n
    ("010100 00", Image("010100 00")),
    ("01201f 00", Image("01201f 00")),
    ("010000 00", Refused(3, 0)),
    ("012100 00", Refused(3, 0)),
    ("010101 00", Refused(3, 0)),
    // missing kind bytes and short bodies
    ("", Refused(1, 0)),
    ("01", Refused(1, 0)),
    ("0102", Refused(1, 0)),
    ("010200", Refused(1, 3)),
    ("010200 02000100", Refused(1, 3)),
    ("010200 0200010001", Refused(1, 8)),
    ("010200 00 02", Refused(1, 4)),
    ("010200 00 06 070001", Refused(1, 5)),
    ("010200 00 05 0000", Refused(1, 4)),
    // kinds, before the body's length is looked at
    ("00", Refused(2, 0)),
    ("02", Refused(2, 0)),
    ("010200 01", Refused(2, 3)),
    ("010200 05", Refused(2, 3)),
    ("010200 06", Refused(2, 3)),
    ("010200 07", Refused(2, 3)),
    ("010200 08", Refused(2, 3)),
    ("010200 00 00", Refused(2, 4)),
    ("010200 00 01", Refused(2, 4)),
    ("010200 00 03", Refused(2, 4)),
    ("010200 00 04", Refused(2, 4)),
    ("010200 00 08", Refused(2, 4)),
    ("010200 00 ff", Refused(2, 4)),
    // a short body before a wrong field
    ("010200 020909", Refused(1, 3)),
    // range
    ("010200 0200020001 00", Refused(3, 3)),
    ("010200 0202000001 00", Refused(3, 3)),
    ("010200 0201010001 00", Refused(3, 3)),
    ("010200 0200010000 00", Refused(3, 3)),
    ("010200 0302 00000001 00 00000003 00", Refused(3, 3)),
    ("010200 040101 00000001 00000003 00", Refused(3, 3)),
    ("010200 00 0200020001", Refused(3, 4)),
    ("010200 00 0201010000", Refused(3, 4)),
    ("010200 00 07010100", Refused(3, 4)),
    // order, over all records; 3 before 4, and 4 before what comes after it
    ("010300 0200010001 0200010001 00", Refused(4, 8)),
    ("010300 0201000001 0200010001 00", Refused(4, 8)),
    ("010300 0200020001 0200010001 00", Refused(4, 8)),
    ("010300 0200010001 0200010000 00", Refused(3, 8)),
    ("010300 0301 00000001 00 00000003 0200010001 00", Refused(4, 14)),
    ("010300 0301 00000001 00 00000003 0301 00000001 00 00000003 00", Refused(4, 14)),
    ("010300 0302 00000001 00 00000005 0300 00000000 00 00000000 00", Refused(4, 14)),
    ("010300 0302 00000001 00 00000005 0301 00000000 00 00000003 00", Refused(4, 14)),
    ("010300 0302 00000001 00 00000005 0301 00000001 01 00000003 00", Refused(4, 14)),
    ("010300 0302 00000001 00 00000005 0301 00000001 00 00000001 00", Refused(4, 14)),
    ("010300 0200010001 040001 00000000 00000001 0302 00000001 00 00000005 00", Refused(4, 19)),
    ("010300 0200010001 040001 00000000 00000001 040001 001effe2 00000001 00", Refused(4, 19)),
    ("010300 0200010001 040001 00000000 00000001 040001 00000000 00000000 00", Refused(4, 19)),
    ("010300 0200020001 040002 00000000 00000001 040001 00000000 00000001 00", Refused(4, 19)),
    ("010300 0200010001 040001 00000000 00000001 040001 00000000 00", Refused(1, 19)),
    // a row for the origin, which need not be node 0
    ("010300 0300 00000001 01 00000001 00", Refused(5, 3)),
    ("010302 0302 00000001 01 00000004 00", Refused(5, 3)),
    ("010100 0300 00000001 00 00000001 00", Refused(5, 3)),
    // a report without an arc; one the other way is another
    ("010300 040001 00000000 00000001 00", Refused(5, 3)),
    ("010300 0200010001 040100 00000001 00000003 00", Refused(5, 8)),
    // a row's label: from 1 to the largest
    ("010300 0301 00000000 00 00000003 00", Refused(10, 3)),
    ("010300 0301 00000001 00 00000003 00", Image("010300 0301 00000001 00 00000003 00")),
    ("010300 0301 001effe1 00 00000003 00", Image("010300 0301 001effe1 00 00000003 00")),
    ("010300 0301 001effe2 00 00000003 00", Refused(10, 3)),
    ("010300 0301 ffffffff 00 00000003 00", Refused(10, 3)),
    // a report's label: 0 too
    ("010300 0200010001 040001 00000000 00000001 00", Image("010300 0200010001 040001 00000000 00000001 00")),
    ("010300 0200010001 040001 001effe1 00000001 00", Image("010300 0200010001 040001 001effe1 00000001 00")),
    ("010300 0200010001 040001 001effe2 00000001 00", Refused(10, 8)),
    ("010300 0200010001 040001 ffffffff 00000001 00", Refused(10, 8)),
    // a row's predecessor: any node below n but its own, listed or not
    ("010300 0301 00000001 01 00000003 00", Refused(11, 3)),
    ("010300 0301 00000001 02 00000003 00", Image("010300 0301 00000001 02 00000003 00")),
    ("010300 0301 00000001 03 00000003 00", Refused(11, 3)),
    ("010300 0301 00000001 ff 00000003 00", Refused(11, 3)),
    ("010302 0301 00000001 02 00000002 00", Image("010302 0301 00000001 02 00000002 00")),
    // a row's list: its own bit, and bits below n
    ("010300 0301 00000001 00 00000000 00", Refused(12, 3)),
    ("010300 0301 00000001 00 00000005 00", Refused(12, 3)),
    ("010300 0301 00000001 00 00000002 00", Image("010300 0301 00000001 00 00000002 00")),
    ("010300 0301 00000001 00 00000007 00", Image("010300 0301 00000001 00 00000007 00")),
    ("010300 0301 00000001 00 0000000b 00", Refused(12, 3)),
    ("010300 0301 00000001 00 80000003 00", Refused(12, 3)),
    // a report's list: the sender's bit, not the receiver's, and bits below n
    ("010300 0200010001 040001 00000000 00000000 00", Refused(12, 8)),
    ("010300 0200010001 040001 00000000 00000006 00", Refused(12, 8)),
    ("010300 0200010001 040001 00000000 00000007 00", Image("010300 0200010001 040001 00000000 00000007 00")),
    ("010300 0200010001 040001 00000000 00000009 00", Refused(12, 8)),
    ("010300 0200010001 040001 00000000 80000001 00", Refused(12, 8)),
    // 31 nodes: node 31 and its bit are not there; 32 nodes: no bit is beyond
    ("011f00 031e 00000001 1f 40000000 00", Refused(11, 3)),
    ("011f00 031e 00000001 00 c0000000 00", Refused(12, 3)),
    ("012000 031e 00000001 1f ffffffff 00", Image("012000 031e 00000001 1f ffffffff 00")),
    ("012000 031e 00000001 20 ffffffff 00", Refused(11, 3)),
    ("012000 031f 00000001 00 80000000 00", Image("012000 031f 00000001 00 80000000 00")),
    ("012000 031f 00000001 00 7fffffff 00", Refused(12, 3)),
    ("012000 021f000001 041f00 00000001 80000000 00", Image("012000 021f000001 041f00 00000001 80000000 00")),
    ("012000 021f000001 041f00 00000001 7fffffff 00", Refused(12, 8)),
    // a row with several faults: 1, 3, 5, 10, 11, 12
    ("010300 0300 00000000 00 000000", Refused(1, 3)),
    ("010300 0303 00000000 03 00000000 00", Refused(3, 3)),
    ("010300 0300 00000000 01 00000001 00", Refused(5, 3)),
    ("010300 0300 00000001 00 00000001 00", Refused(5, 3)),
    ("010300 0300 00000001 01 00000002 00", Refused(5, 3)),
    ("010300 0300 001effe2 03 00000008 00", Refused(5, 3)),
    ("010300 0301 00000000 01 00000003 00", Refused(10, 3)),
    ("010300 0301 001effe2 00 00000001 00", Refused(10, 3)),
    ("010300 0301 001effe2 03 0000000a 00", Refused(10, 3)),
    ("010300 0301 00000001 01 00000001 00", Refused(11, 3)),
    ("010300 0301 00000001 03 0000000a 00", Refused(11, 3)),
    // a report with several faults: 1, 3, 5, 10, 12
    ("010300 040001 ffffffff 000000", Refused(1, 3)),
    ("010300 040101 ffffffff 00000000 00", Refused(3, 3)),
    ("010300 040001 001effe2 00000001 00", Refused(5, 3)),
    ("010300 040001 00000000 00000002 00", Refused(5, 3)),
    ("010300 040001 001effe2 00000008 00", Refused(5, 3)),
    ("010300 0200010001 040001 001effe2 00000002 00", Refused(10, 8)),
    ("010300 0200010001 040001 ffffffff 00000009 00", Refused(10, 8)),
    // two records with a fault: the first
    ("010300 0301 00000001 00 00000001 0302 00000000 00 00000004 00", Refused(12, 3)),
];

/// Marks on the four-node field, as words and their bits, and the number that refuses them at place 44.
const MARKS: &[(&[(usize, u32)], u8)] = &[
    (&[(2, 1)], 7),
    (&[(1, 8)], 7),
    (&[(1, 2)], 3),
    (&[(4, 1)], 3),
    (&[(31, 1)], 3),
    (&[(1, 16)], 3),
    (&[(1, 1 << 31)], 3),
    // 3 anywhere before 7 anywhere
    (&[(0, 4), (31, 1)], 3),
    (&[(2, 1), (3, 8)], 3),
];

/// A small run with every kind of record in it; `*` stands for marks.
const SMALL: &str = "010300 0200010001 0201020002 0301 00000001 00 00000003 040102 00000001 00000003 00 06 0700020f 05* 0201020000 06";

/// The words of marks in hexadecimal.
fn words(marks: &[(usize, u32)]) -> String {
    let mut words = [0u32; 32];
    marks.iter().for_each(|&(word, bits)| words[word] |= bits);
    words.iter().map(|word| format!("{word:08x}")).collect()
}

fn main() {
    let arguments: Vec<u64> = std::env::args().skip(1).map(|word| word.parse().expect("arguments: a seed and a count")).collect();
    let seed = arguments.first().copied().unwrap_or(1);
    let count = arguments.get(1).copied().unwrap_or(40_000);
    println!("compare: seed {seed}, count {count}");
    lent::watch();
    let mut compare = Compare::new(seed);

    for (events, arcs, rows, reports) in FIELD_CASES {
        compare.known(&format!("{FIELD} {events}"), Ok(hex(&format!("010400 {arcs} {rows} {reports} 00"))));
    }
    for (run, known) in CASES {
        compare.known(run, known.result());
    }
    for (marks, number) in MARKS {
        compare.known(&format!("{FIELD} 05 {}", words(marks)), Err(Refusal { number: *number, place: 44 }));
    }
    compare.largest();
    let marks = words(&[(1, 1), (2, 2)]);
    compare.every_byte(&hex(&SMALL.replace('*', &marks)));
    compare.long_runs();
    compare.huge();
    (0..count).for_each(|_| compare.random_run());
    std::process::exit(if compare.report() { 0 } else { 1 });
}
