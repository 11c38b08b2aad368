//! The lines of a script: lists that are set, calls with what they answer, and lists that are held.
use std::fmt::Write as _;

/// The calls, in the order in which the list `calls` has how many there were.
#[derive(Clone, Copy)]
pub enum Kind {
    Load,
    Merge,
    Cut,
    Front,
    Map,
    Paint,
}

const NAMES: [&str; 6] = ["load", "merge", "cut", "front", "map", "paint"];

/// How long a line of numbers may be that need not be there.
const LONGEST_LINE: usize = 400;

#[derive(Default)]
pub struct Script {
    pub text: String,
    calls: [u64; 6],
}

/// The values of a list, each once or with a star and how many times it stands there.
fn values(list: &[u64]) -> String {
    let mut s = String::new();
    for run in list.chunk_by(|a, b| a == b) {
        let _ = match run.len() {
            1 => write!(s, " {}", run[0]),
            times => write!(s, " {}*{times}", run[0]),
        };
    }
    s
}

/// The sum of the numbers of a list, and the sum of the sums up to each of them.
fn checksums(list: &[u64]) -> (u64, u64) {
    let (mut sum, mut sums) = (0_u64, 0_u64);
    for n in list {
        sum = sum.wrapping_add(*n);
        sums = sums.wrapping_add(sum);
    }
    (sum, sums)
}

pub fn numbers<T: Copy + Into<u64>>(list: &[T]) -> Vec<u64> {
    list.iter().map(|&n| n.into()).collect()
}

impl Script {
    fn line(&mut self, line: &str) {
        self.text.push_str(line);
        self.text.push('\n');
    }

    pub fn case(&mut self, of: &str) {
        self.line(&format!("case {of}"));
    }

    pub fn set<T: Copy + Into<u64>>(&mut self, name: &str, list: &[T]) {
        let list = numbers(list);
        self.line(&format!("let {name} {}{}", list.len(), values(&list)));
    }

    /// A list, number by number.
    pub fn whole<T: Copy + Into<u64>>(&mut self, name: &str, list: &[T]) {
        let list = numbers(list);
        self.line(&format!("is {name} {}{}", list.len(), values(&list)));
    }

    /// A list, number by number or, where its line is long, by checksums.
    pub fn held<T: Copy + Into<u64>>(&mut self, name: &str, list: &[T]) {
        let list = numbers(list);
        if values(&list).len() <= LONGEST_LINE {
            return self.whole(name, &list);
        }
        let (sum, sums) = checksums(&list);
        self.line(&format!("sums {name} {} {sum} {sums}", list.len()));
    }

    /// A call: what it is given besides its lists, and after the arrow what it answers.
    pub fn call(&mut self, kind: Kind, rest: &str) {
        self.line(&format!("{} {rest}", NAMES[kind as usize]));
        self.calls[kind as usize] += 1;
    }

    /// The line that holds how many calls there were of each kind.
    pub fn hold_calls(&mut self) {
        self.whole("calls", &self.calls.clone());
    }

    /// What `replay` writes where all agrees.
    pub fn agreed(&self) -> String {
        format!("all agreed, lines: {}", self.text.lines().count())
    }
}
