// Tries the program `routes`: stored inputs with their expected texts, inputs at its limit, and random damaged runs beside reference.rs, given as files
// and through pipes: whole, in two parts, byte by byte, without end. What it prints must be exactly the expected text, and a hang is a failure.
// Arguments: the program, the folder of stored inputs, the folder of samples, a seed, a count. The last line is 'program: N inputs, M failed'.

mod generate;
#[allow(dead_code)] // the C call is compared elsewhere
mod reference;

use generate::Random;
use std::fs::File;
use std::io::{Read, Write};
use std::os::unix::process::ExitStatusExt;
use std::path::{Path, PathBuf};
use std::process::{ChildStdin, Command, ExitStatus, Stdio};
use std::sync::atomic::{AtomicBool, Ordering};
use std::sync::Arc;
use std::thread::{sleep, spawn};
use std::time::{Duration, Instant};

/// How long the program may take for one input.
const LIMIT: Duration = Duration::from_secs(10);

/// How an input is given.
#[derive(Clone, Copy, PartialEq)]
enum Given {
    /// As a file on standard input.
    File,
    /// Through a pipe, with one write.
    Whole,
    /// Through a pipe, with a pause after so many bytes.
    Parts(usize),
    /// Through a pipe, with a pause after each byte.
    Bytes,
    /// Through a pipe; then the last byte again and again until the program ends.
    Endless,
    /// Through a pipe that is not closed until the program ends.
    Open,
    /// Not at all: standard input is a folder, which can't be read.
    Folder,
}

/// Writes the input as asked. A program that ends early breaks the pipe; that is no fault.
fn give(mut pipe: ChildStdin, input: &[u8], given: Given, ended: &AtomicBool) -> std::io::Result<()> {
    match given {
        Given::File | Given::Folder => (),
        Given::Whole => pipe.write_all(input)?,
        Given::Parts(at) => {
            pipe.write_all(&input[..at])?;
            sleep(Duration::from_millis(4));
            pipe.write_all(&input[at..])?;
        }
        Given::Bytes => {
            for byte in input {
                pipe.write_all(&[*byte])?;
                sleep(Duration::from_micros(500));
            }
        }
        Given::Endless => {
            pipe.write_all(input)?;
            let more = vec![input.last().copied().unwrap_or(0); 1000];
            while !ended.load(Ordering::Relaxed) {
                pipe.write_all(&more)?;
            }
        }
        Given::Open => {
            pipe.write_all(input)?;
            while !ended.load(Ordering::Relaxed) {
                sleep(Duration::from_millis(1));
            }
        }
    }
    Ok(())
}

/// What the program did.
struct Done {
    printed: Vec<u8>,
    errors: Vec<u8>,
    /// `None` where it had to be ended.
    status: Option<ExitStatus>,
}

struct Trial {
    program: PathBuf,
    inputs: usize,
    failures: usize,
    hangs: usize,
}

impl Trial {
    fn start(&self, input: &[u8], given: Given) -> std::io::Result<Done> {
        let file = std::env::temp_dir().join(format!("routes-input-{}", std::process::id()));
        let mut command = Command::new(&self.program);
        if given == Given::File {
            std::fs::write(&file, input)?;
            command.stdin(File::open(&file)?);
            std::fs::remove_file(&file)?;
        } else if given == Given::Folder {
            command.stdin(File::open(std::env::temp_dir())?);
        } else {
            command.stdin(Stdio::piped());
        }
        let mut child = command.stdout(Stdio::piped()).stderr(Stdio::piped()).spawn()?;
        let ended = Arc::new(AtomicBool::new(false));
        let writer = child.stdin.take().map(|pipe| {
            let (input, ended) = (input.to_vec(), ended.clone());
            spawn(move || give(pipe, &input, given, &ended))
        });
        let mut printed = child.stdout.take().expect("a pipe");
        let mut errors = child.stderr.take().expect("a pipe");
        let printed = spawn(move || all_of(&mut printed));
        let errors = spawn(move || all_of(&mut errors));
        let start = Instant::now();
        let status = loop {
            match child.try_wait()? {
                Some(status) => break Some(status),
                None if start.elapsed() > LIMIT => {
                    child.kill()?;
                    child.wait()?;
                    break None;
                }
                None => sleep(Duration::from_micros(200)),
            }
        };
        ended.store(true, Ordering::Relaxed);
        if let Some(writer) = writer {
            let _ = writer.join().expect("the writer ends");
        }
        Ok(Done { printed: printed.join().expect("the reader ends"), errors: errors.join().expect("the reader ends"), status })
    }

    /// Gives the program one input and holds what it prints to the text.
    fn hold(&mut self, name: &str, input: &[u8], given: Given, text: &str) {
        self.inputs += 1;
        let done = self.start(input, given).unwrap_or_else(|error| panic!("{} can't be started: {error}", self.program.display()));
        let fault = match done.status {
            None => Some(format!("it had not ended after {} s", LIMIT.as_secs())),
            Some(status) if status.signal().is_some() => Some(format!("it died of signal {:?}", status.signal())),
            Some(_) if done.printed != text.as_bytes() => Some(format!("it printed\n{}in place of\n{text}", String::from_utf8_lossy(&done.printed))),
            Some(_) if given == Given::Folder && done.errors.is_empty() => Some("it printed nothing on standard error".to_string()),
            Some(_) if given != Given::Folder && !done.errors.is_empty() => {
                Some(format!("it printed on standard error: {}", String::from_utf8_lossy(&done.errors)))
            }
            Some(_) => None,
        };
        if let Some(fault) = fault {
            self.failures += 1;
            let shown: String = input.iter().take(160).map(|byte| format!("{byte:02x}")).collect();
            println!("program: failed: {name} ({} bytes): {fault}\n  input {shown}", input.len());
            self.hangs += usize::from(done.status.is_none());
            if self.hangs == 2 || self.failures == 10 {
                println!("program: stopped here");
                self.end();
            }
        }
    }

    fn end(&self) -> ! {
        println!("program: {} inputs, {} failed", self.inputs, self.failures);
        std::process::exit(if self.failures == 0 { 0 } else { 1 });
    }

    /// A stored input in every way that it can be given.
    fn stored(&mut self, name: &str, input: &[u8], text: &str) {
        if reference::text(input) != text {
            self.failures += 1;
            println!("program: failed: {name}: the reference itself does not give the stored text");
        }
        for given in [Given::File, Given::Whole, Given::Parts(input.len() / 2)] {
            self.hold(name, input, given, text);
        }
        if input.len() <= 400 {
            self.hold(name, input, Given::Bytes, text);
        }
    }
}

fn all_of(from: &mut impl Read) -> Vec<u8> {
    let mut bytes = Vec::new();
    from.read_to_end(&mut bytes).expect("what the program prints can be read");
    bytes
}

/// The bytes of a stored input: hexadecimal, with blanks, and lines of comment that start with #.
fn hex(text: &str) -> Vec<u8> {
    let lines: String = text.lines().filter(|line| !line.starts_with('#')).collect();
    let digits: Vec<u32> = lines.split_whitespace().flat_map(str::chars).map(|digit| digit.to_digit(16).expect("a digit")).collect();
    assert!(digits.len() % 2 == 0, "two digits to a byte");
    digits.chunks(2).map(|pair| (pair[0] * 16 + pair[1]) as u8).collect()
}

/// The files of a folder with this ending, in order.
fn files(folder: &Path, ending: &str) -> Vec<PathBuf> {
    let mut files: Vec<PathBuf> = std::fs::read_dir(folder).expect("a folder").map(|file| file.expect("a file").path()).collect();
    files.retain(|file| file.extension().is_some_and(|extension| extension == ending));
    files.sort();
    files
}

fn main() {
    let words: Vec<String> = std::env::args().skip(1).collect();
    let [program, folder, samples, rest @ ..] = words.as_slice() else { panic!("arguments: program, stored inputs, samples, seed, count") };
    let seed = rest.first().map_or(1, |word| word.parse().expect("a seed"));
    let count = rest.get(1).map_or(300, |word| word.parse().expect("a count"));
    println!("program: seed {seed}, count {count}");
    let program = std::fs::canonicalize(program).expect("the program");
    let mut trial = Trial { program, inputs: 0, failures: 0, hangs: 0 };
    let mut random = Random(seed);

    // Stored inputs, and the samples, which are the stored inputs of the same name.
    let stored = files(Path::new(folder), "hex");
    for file in &stored {
        let name = file.file_stem().expect("a name").to_string_lossy();
        let input = hex(&std::fs::read_to_string(file).expect("a text"));
        let text = std::fs::read_to_string(file.with_extension("txt")).expect("a text");
        trial.stored(&name, &input, &text);
    }
    let samples = files(Path::new(samples), "run");
    assert!(!stored.is_empty() && !samples.is_empty(), "there are stored inputs and samples");
    for file in &samples {
        let name = file.file_stem().expect("a name");
        let input = std::fs::read(file).expect("a sample");
        let same = std::fs::read_to_string(Path::new(folder).join(name).with_extension("hex")).map(|text| hex(&text)).ok();
        if same.as_ref() != Some(&input) {
            trial.failures += 1;
            println!("program: failed: {} is not the stored input of that name", file.display());
        }
    }

    // Every cut of the four-node field, and every cut of it with the pipe broken there by a pause.
    let field = std::fs::read(Path::new(&words[2]).join("field.run")).expect("the four-node field");
    for at in 0..field.len() {
        trial.hold("field, cut", &field[..at], Given::Whole, &reference::text(&field[..at]));
        trial.hold("field, with a pause", &field, Given::Parts(at), &reference::text(&field));
    }

    // The limit: 65,536 bytes are taken, one more is not, whatever they are.
    let long = |start: &[u8], filling: u8, length: usize| {
        let mut input = start.to_vec();
        input.resize(length, filling);
        input
    };
    let limit = reference::MAX_INPUT;
    for (start, texts) in [
        (&[1, 1, 0, 0][..], ["node cost from hops\n0 0 - 0\nrounds 65531\n", "node cost from hops\n0 0 - 0\nrounds 65532\n", "too long\n", "too long\n"]),
        (&[0][..], ["stopped 2 at 0\n", "stopped 2 at 0\n", "too long\n", "too long\n"]),
    ] {
        for (length, text) in [limit - 1, limit, limit + 1, 20 * limit].into_iter().zip(texts) {
            let input = long(start, 6, length);
            for given in [Given::File, Given::Whole, Given::Parts(3), Given::Parts(limit - 2), Given::Parts(length - 1)] {
                trial.hold("about the limit", &input, given, text);
            }
        }
        trial.hold("without end", start, Given::Endless, "too long\n");
        trial.hold("without end, after a long input", &long(start, 6, limit), Given::Endless, "too long\n");
        trial.hold("too long and not closed", &long(start, 6, limit + 1), Given::Open, "too long\n");
    }

    // An input that can't be read is no cut run: nothing is printed on standard output.
    trial.hold("unreadable", &[], Given::Folder, "");

    // The largest image, and full rounds after it.
    let mut largest = generate::dense(&mut random);
    for _ in 0..3 {
        let input = largest.bytes();
        trial.hold("largest image", &input, Given::Whole, &reference::text(&input));
        largest.records.push(vec![6]);
    }

    // Random runs, most of them damaged.
    for _ in 0..count {
        let nodes = generate::some_nodes(&mut random);
        let made = generate::run(&mut random, nodes, 12);
        let other = generate::run(&mut random, nodes, 12);
        let input = match random.below(6) {
            0 | 1 => made.bytes(),
            2 => generate::wrong_fields(&mut random, &made),
            3 => generate::wrong_records(&mut random, &made, &other),
            4 => generate::wrong_bytes(&mut random, &made.bytes()),
            _ => generate::any_bytes(&mut random),
        };
        let given = match random.below(4) {
            0 => Given::File,
            1 => Given::Parts(random.below(input.len() + 1)),
            _ => Given::Whole,
        };
        trial.hold("random", &input, given, &reference::text(&input));
    }
    trial.end();
}
