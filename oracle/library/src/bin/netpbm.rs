//! Holds the header of a PPM to Netpbm itself: makes headers from a seed, asks `pamfile` and the library about each,
//! and where both accept one, `pamtopnm` for the image. Netpbm takes more than the rules do (docs/DIFFERENCES.md); here
//! it is read once more as it reads, with the reasons why the rules refuse what it takes. A header about which the
//! three do not tell the same is told, and the status is then not 0.
//!
//! The arguments are the number of headers and the seed.
#[path = "../library.rs"]
mod library;

use library::Library;
use oracle::{classes::ppm, port::Port, random::Random};
use std::{
    collections::{BTreeMap, BTreeSet},
    env,
    io::Write,
    process::{Command, ExitCode, Stdio},
    thread,
};

/// Why the rules refuse what Netpbm takes.
type Reasons = BTreeSet<&'static str>;

const MAXIMUM: &str = "a maximum other than 255";

/// A header as Netpbm reads it: width, height and maximum, and where the pixels start.
#[derive(Debug, PartialEq)]
struct Read {
    numbers: [u64; 3],
    start: usize,
}

/// What ended a number, or stood in a gap.
#[derive(Clone, Copy, PartialEq)]
enum Byte {
    Whitespace,
    /// A comment with its end, which is read as if it were the end alone.
    Comment,
    Digit(u64),
    Other,
}

/// A file that begins with `P6` as Netpbm reads it, byte by byte.
struct Reader<'a> {
    file: &'a [u8],
    at: usize,
    reasons: Reasons,
}

impl Reader<'_> {
    fn next(&mut self) -> Option<Byte> {
        let c = *self.file.get(self.at)?;
        self.at += 1;
        Some(match c {
            b'#' => {
                let ends = |c: &u8| b"\r\n".contains(c);
                self.at += self.file[self.at..].iter().position(ends)? + 1;
                Byte::Comment
            }
            b' ' | b'\t' | b'\r' | b'\n' => Byte::Whitespace,
            b'0'..=b'9' => Byte::Digit((c - b'0').into()),
            _ => Byte::Other,
        })
    }

    /// A number behind whitespace and comments; also what ended the number before, and what ends this one, which is
    /// read with it, whatever it is.
    fn number(&mut self, before: Option<Byte>) -> Option<(u64, Byte)> {
        let mut seen = Vec::from_iter(before);
        let mut byte = self.next()?;
        while matches!(byte, Byte::Whitespace | Byte::Comment) {
            seen.push(byte);
            byte = self.next()?;
        }
        let Byte::Digit(mut value) = byte else {
            return None;
        };
        if !seen.contains(&Byte::Whitespace) {
            self.reasons.insert(match seen.contains(&Byte::Comment) {
                true => "a gap of comments alone",
                false => "no gap",
            });
        }
        loop {
            byte = self.next()?;
            let Byte::Digit(digit) = byte else {
                break;
            };
            value = 10 * value + digit;
            if value > i32::MAX as u64 {
                return None;
            }
        }
        if byte == Byte::Other {
            self.reasons
                .insert("another byte than whitespace behind a number");
        }
        Some((value, byte))
    }

    fn header(&mut self) -> Option<Read> {
        let (mut numbers, mut end) = ([0; 3], None);
        for number in &mut numbers {
            let (value, byte) = self.number(end)?;
            (*number, end) = (value, Some(byte));
        }
        if end == Some(Byte::Comment) {
            self.reasons.insert("a comment behind the maximum");
        }
        let [width, height, maximum] = numbers;
        if width == 0 || height == 0 || !(1..=65_535).contains(&maximum) {
            return None;
        }
        if width.max(height) > 65_535 {
            self.reasons.insert("a side above 65,535");
        }
        if maximum != 255 {
            self.reasons.insert(MAXIMUM);
        }
        Some(Read {
            numbers,
            start: self.at,
        })
    }
}

/// What a program of Netpbm writes about a file on its standard input, if it takes it.
fn asked(program: &str, arguments: &[&str], file: &[u8]) -> Option<Vec<u8>> {
    let mut child = Command::new(program)
        .args(arguments)
        .stdin(Stdio::piped())
        .stdout(Stdio::piped())
        .stderr(Stdio::null())
        .spawn()
        .unwrap_or_else(|e| panic!("{program}: {e}"));
    let mut input = child.stdin.take().expect("its input");
    thread::scope(|scope| {
        // A program that has refused the file reads no further.
        scope.spawn(move || input.write_all(file));
        let output = child.wait_with_output().expect("its output");
        output.status.success().then_some(output.stdout)
    })
}

/// Width, height and maximum, as `pamfile` tells them.
fn told(file: &[u8]) -> Option<[u64; 3]> {
    let line = asked("pamfile", &["-machine"], file)?;
    let line = String::from_utf8(line).expect("a line");
    let words: Vec<&str> = line.split_whitespace().collect();
    let ["stdin:", "PPM", "RAW", width, height, "3", maximum, "RGB"] = words[..] else {
        panic!("pamfile says {line}");
    };
    Some([width, height, maximum].map(|n| n.parse().expect("a number")))
}

/// Up to which size an image is laid behind its header.
const MOST_PIXELS: usize = 100_000;

/// The lines that one header is counted on, or what is not the same.
type Compared = Result<Vec<String>, String>;

fn line(text: &str) -> Compared {
    Ok(vec![String::from(text)])
}

/// A header that Netpbm takes, and that the rules refuse for some reasons.
fn taken_by_netpbm(number: u8, reasons: Reasons) -> Compared {
    let of_maximum = reasons.iter().eq([&MAXIMUM]);
    if number != if of_maximum { 11 } else { 10 } {
        return Err(format!("{number} is answered, for {reasons:?}"));
    }
    let all = reasons.iter().map(|why| format!("    {why}"));
    Ok([format!("the library alone refuses, with {number}")]
        .into_iter()
        .chain(all)
        .collect())
}

/// A header that both take, so that `pamtopnm` has to find the pixels where they are laid.
fn taken_by_both(header: &[u8], [width, height]: [usize; 2], r: &mut Random) -> Compared {
    if width * height > MOST_PIXELS {
        return line("both take it, as a header alone");
    }
    let pixels: Vec<u8> = (0..3 * width * height).map(|_| r.draw() as u8).collect();
    let image = asked("pamtopnm", &[], &[header, &pixels].concat());
    let plain = format!("P6\n{width} {height}\n255\n");
    match image == Some([plain.as_bytes(), &pixels].concat()) {
        true => line("both take it, and the image is the same"),
        false => Err(String::from("pamtopnm has another image")),
    }
}

fn compare(header: &[u8], r: &mut Random) -> Compared {
    let (number, [width, height, start]) = Library.ppm_header(header);
    if !header.starts_with(b"P6") {
        return match number {
            10 => line("no P6: the library refuses, and Netpbm was not asked"),
            _ => Err(format!("{number} is answered")),
        };
    }
    let mut reader = Reader {
        file: header,
        at: 2,
        reasons: Reasons::new(),
    };
    let read = reader.header();
    let told = told(header);
    if told != read.as_ref().map(|read| read.numbers) {
        return Err(format!("pamfile tells {told:?}, read is {read:?}"));
    }
    let Some(read) = read else {
        return match number {
            0 => Err(String::from("Netpbm refuses what the library takes")),
            _ => line("both refuse"),
        };
    };
    if !reader.reasons.is_empty() {
        return taken_by_netpbm(number, reader.reasons);
    }
    let ours = ([width as u64, height as u64, 255], start);
    if number != 0 || ours != (read.numbers, read.start) {
        return Err(format!("{number} {ours:?} is answered, read is {read:?}"));
    }
    taken_by_both(&header[..start], [width, height], r)
}

fn main() -> ExitCode {
    let argument = |i, usual: u64| {
        env::args()
            .nth(i)
            .map_or(usual, |n| n.parse().expect("a number"))
    };
    let (headers, seed) = (argument(1, 5_000), argument(2, 1));
    let r = &mut Random(seed);
    let mut counts: BTreeMap<String, usize> = BTreeMap::new();
    let mut differ = 0;
    for _ in 0..headers {
        let pixels = r.from(1, 24);
        let header = ppm::header(r, pixels);
        match compare(&header, r) {
            Ok(lines) => lines
                .into_iter()
                .for_each(|line| *counts.entry(line).or_default() += 1),
            Err(differs) => {
                println!("{}\n  {differs}", header.escape_ascii());
                differ += 1;
            }
        }
    }
    for (line, count) in counts {
        println!("{count:5} {line}");
    }
    println!("seed {seed}: {headers} headers, {differ} without a reason");
    match differ {
        0 => ExitCode::SUCCESS,
        _ => ExitCode::FAILURE,
    }
}
