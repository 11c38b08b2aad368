//! A call over lists, made by the model of the rules, and its lines.
use crate::script::{Kind, Script, numbers};
use oracle::{
    model::Model,
    port::{Band, Grid, Lent, Port},
};

/// What the calls are lent: a merge adds the second table to the first, and a cut takes it as its work table.
#[derive(Clone, Default)]
pub struct Lists {
    pub table: Vec<u64>,
    pub second: Vec<u64>,
    pub map: Vec<u8>,
    pub palette: Vec<u8>,
    pub counts: Vec<u32>,
    pub remainders: Vec<u32>,
    pub frame: Vec<u8>,
    pub weights: Vec<u32>,
    pub indices: Vec<u8>,
}

#[derive(Clone, Copy)]
pub enum Call {
    Load { weighted: bool },
    LoadSecond { weighted: bool },
    Merge,
    Cut { k: usize },
    Map { colours: usize, band: Band },
    Paint { band: Band },
}

/// The boxes of a cut, each with the bits of its spread.
pub type Boxes = Vec<([u8; 6], u64)>;

/// The record of a cut.
pub struct Record {
    pub number: u8,
    pub rounds: usize,
    pub boxes: Boxes,
}

impl Record {
    /// That of a refusal.
    pub fn refused(number: u8) -> Self {
        Self {
            number,
            rounds: 0,
            boxes: Vec::new(),
        }
    }
}

/// How many places the record of a cut has.
const PLACES: usize = 256;

/// Makes a cut, and answers its record.
pub fn cut(grid: Grid, k: usize, l: &mut Lists) -> Record {
    let (mut boxes, mut spreads) = ([0; 6 * PLACES], [0; PLACES]);
    let lent = Lent {
        palette: &mut l.palette,
        counts: &mut l.counts,
        remainders: &mut l.remainders,
        map: &mut l.map,
        boxes: &mut boxes,
        spreads: &mut spreads,
    };
    let answer = Model.cut(grid, k, &l.table, &mut l.second, lent);
    let boxes = boxes.as_chunks().0.iter().copied().zip(spreads);
    Record {
        number: answer.number,
        rounds: answer.rounds,
        boxes: boxes.take(answer.boxes).collect(),
    }
}

/// The record of a cut as a list: how many boxes there are, how many rounds there were, and each of the 256 places as
/// seven numbers, zeros past the last box.
fn list_of(r: &Record) -> Vec<u64> {
    let mut list = vec![r.boxes.len() as u64, r.rounds as u64];
    for (ends, spread) in &r.boxes {
        list.extend(ends.map(u64::from));
        list.push(*spread);
    }
    list.resize(2 + 7 * PLACES, 0);
    list
}

/// The line of a cut, and the one of its record.
pub fn write_cut(s: &mut Script, [b1, b2, b3]: Grid, k: usize, r: &Record) {
    let line = format!("table {b1} {b2} {b3} k {k} -> {}", r.number);
    s.call(Kind::Cut, &line);
    s.whole("record", &list_of(r));
}

impl Call {
    /// What the call is lent, by name.
    pub fn lent(self, l: &Lists) -> Vec<(&'static str, Vec<u64>)> {
        let table = ("table", l.table.clone());
        let second = ("second", l.second.clone());
        let map = ("map", numbers(&l.map));
        let palette = ("palette", numbers(&l.palette));
        let counts = ("counts", numbers(&l.counts));
        let remainders = ("left", numbers(&l.remainders));
        let frame = ("frame", numbers(&l.frame));
        let weights = ("weights", numbers(&l.weights));
        let indices = ("indices", numbers(&l.indices));
        match self {
            Self::Load { .. } => vec![table, frame, weights],
            Self::LoadSecond { .. } => vec![second, frame, weights],
            Self::Merge => vec![table, second],
            Self::Cut { .. } => vec![table, second, palette, counts, remainders, map],
            Self::Map { .. } => vec![map, frame, indices],
            Self::Paint { .. } => vec![map, palette, frame],
        }
    }

    /// Makes the call, writes its line and answers its number.
    pub fn make(self, s: &mut Script, grid: Grid, l: &mut Lists) -> u8 {
        let [b1, b2, b3] = grid;
        match self {
            Self::Load { weighted } => {
                let number = Model.load(grid, &mut l.table, &l.frame, weighted, &l.weights);
                let w = u8::from(weighted);
                let line = format!("table {b1} {b2} {b3} weighted {w} -> {number}");
                s.call(Kind::Load, &line);
                number
            }
            Self::LoadSecond { weighted } => {
                let number = Model.load(grid, &mut l.second, &l.frame, weighted, &l.weights);
                let w = u8::from(weighted);
                let line = format!("second {b1} {b2} {b3} weighted {w} -> {number}");
                s.call(Kind::Load, &line);
                number
            }
            Self::Merge => {
                let number = Model.merge(grid, &mut l.table, &l.second);
                s.call(Kind::Merge, &format!("table {b1} {b2} {b3} -> {number}"));
                number
            }
            Self::Cut { k } => {
                let record = cut(grid, k, l);
                write_cut(s, grid, k, &record);
                record.number
            }
            Self::Map { colours, band } => {
                let number = Model.map(grid, &l.map, colours, &l.frame, &mut l.indices, band);
                let given = format!("frame {b1} {b2} {b3} colours {colours}");
                let Band { first, pixels } = band;
                let line = format!("{given} first {first} pixels {pixels} -> {number}");
                s.call(Kind::Map, &line);
                number
            }
            Self::Paint { band } => {
                let number = Model.paint(grid, &l.map, &l.palette, &mut l.frame, band);
                let Band { first, pixels } = band;
                let line =
                    format!("frame {b1} {b2} {b3} first {first} pixels {pixels} -> {number}");
                s.call(Kind::Paint, &line);
                number
            }
        }
    }

    /// A case of this call alone, which has to answer a number. All that it is lent is held, and where the number is not
    /// 0 to what it was before.
    pub fn case(self, s: &mut Script, of: &str, grid: Grid, lists: &Lists, number: u8) {
        s.case(of);
        for (name, list) in self.lent(lists) {
            s.set(name, &list);
        }
        let mut later = lists.clone();
        let answered = self.make(s, grid, &mut later);
        assert_eq!(answered, number, "{of}");
        for ((name, old), (_, new)) in self.lent(lists).into_iter().zip(self.lent(&later)) {
            assert!(number == 0 || new == old, "{of}: {name}");
            s.whole(name, &new);
        }
    }
}

/// The filled front of a palette, which the palette then is.
pub fn front(s: &mut Script, boxes: usize, palette: &mut Vec<u8>) {
    let n = if palette.len() / 3 < boxes {
        0
    } else {
        3 * boxes
    };
    palette.truncate(n);
    s.call(Kind::Front, &format!("palette boxes {boxes} -> {n}"));
    s.whole("palette", palette);
}
