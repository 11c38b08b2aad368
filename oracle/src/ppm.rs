//! PPM files, good or damaged, against the rules (Rules, Frames; Rules, Answers). The original reads none, so that
//! every grid is one of the judge's here.
use crate::{
    buffer::{Buffer, Differs, same},
    calls::{add_one, resize, table_of},
    case::Case,
    damage::Damage,
    numbers,
    port::{Grid, Port},
    random::Random,
    tally::Tally,
};

/// A file, and the table that it is loaded into.
struct Ppm {
    grid: Grid,
    table: Vec<u64>,
    file: Vec<u8>,
}

/// "Whitespace is a blank, TAB, CR or LF."
fn is_whitespace(c: &u8) -> bool {
    b" \t\r\n".contains(c)
}

/// What follows a gap, if one stands in front: "whitespace and comments in any order", "with at least one whitespace
/// that is no part of a comment".
fn after_gap(mut rest: &[u8]) -> Option<&[u8]> {
    let mut whitespace = false;
    loop {
        rest = match rest {
            [b'#', comment @ ..] => {
                // "a comment goes from `#` through the next CR or LF"
                let end = comment.iter().position(|c| b"\r\n".contains(c))?;
                &comment[end + 1..]
            }
            [c, more @ ..] if is_whitespace(c) => {
                whitespace = true;
                more
            }
            _ => return whitespace.then_some(rest),
        };
    }
}

/// "A number is decimal digits, one or more": its value and what follows. One that is too large to be told is none of
/// those that are asked for.
fn number(rest: &[u8]) -> Option<(usize, &[u8])> {
    let digits = rest.iter().take_while(|c| c.is_ascii_digit()).count();
    let (number, rest) = rest.split_at(digits);
    let text = std::str::from_utf8(number).expect("digits");
    (digits > 0).then(|| (text.parse().unwrap_or(usize::MAX), rest))
}

/// Width, height and the place of the first pixel; or the header's refusal.
fn header(file: &[u8]) -> Result<[usize; 3], u8> {
    let mut rest = file.strip_prefix(b"P6").ok_or(10)?;
    let mut fields = [0; 3];
    for field in &mut fields {
        (*field, rest) = after_gap(rest).and_then(number).ok_or(10)?;
    }
    let [width, height, maximum] = fields;
    let whole = rest.first().is_some_and(is_whitespace);
    // "Width and height are each 1 to 65,535"
    if !whole || [width, height].iter().any(|n| !(1..=65_535).contains(n)) {
        return Err(10);
    }
    if maximum != 255 {
        return Err(11);
    }
    Ok([width, height, file.len() - rest.len() + 1])
}

impl Ppm {
    fn damage(&mut self, d: &Damage, r: &mut Random) {
        match d.what {
            "number" => {
                if let Some(n) = self.table.get_mut(d.place) {
                    *n = n.wrapping_add_signed(d.value);
                }
            }
            "size" => self.grid[d.place % 3] = d.value as usize,
            "table" => resize(&mut self.table, d.value, r),
            "byte" => {
                if let Some(c) = self.file.get_mut(d.place) {
                    *c = d.value as u8;
                }
            }
            "file" => resize(&mut self.file, d.value, r),
            other => unreachable!("{other}"),
        }
    }

    /// The header of the file, of its header alone, and of each beginning of that, which has none.
    fn header(&self, port: &dyn Port) -> Result<u8, Differs> {
        let said = header(&self.file);
        let answered = port.ppm_header(&self.file);
        let expected = match said {
            Ok(image) => (0, image),
            Err(number) => (number, [0; 3]),
        };
        same("a header", expected, answered)?;
        if let Ok([_, _, start]) = said {
            let alone = port.ppm_header(&self.file[..start]);
            same("a header alone", expected, alone)?;
            for end in 0..start {
                let cut = port.ppm_header(&self.file[..end]);
                same("a header that was cut", (10, [0; 3]), cut)?;
            }
        }
        Ok(expected.0)
    }

    /// The bytes of the pixels, or the refusal: "width times height times three" bytes follow the header.
    fn pixels(&self) -> Result<&[u8], u8> {
        let [width, height, start] = header(&self.file)?;
        let bytes = &self.file[start..];
        if bytes.len() != 3 * width * height {
            return Err(12);
        }
        Ok(bytes)
    }

    /// Loads the file, and every beginning of it, which is refused.
    fn load(&self, port: &dyn Port, r: &mut Random) -> Result<u8, Differs> {
        // "10 to 14 come before 1, in that order"
        let said = match self.pixels() {
            Ok(bytes) => numbers::load(self.grid, &self.table, bytes.len(), false, &[]),
            Err(number) => number,
        };
        let mut table = Buffer::of(&self.table, r);
        let mut file = Buffer::of(&self.file, r);
        if let Ok(bytes) = self.pixels() {
            let start = self.file.len() - bytes.len();
            for end in 0..self.file.len() {
                let number = port.load_ppm(self.grid, table.lend(), &file.see()[..end]);
                let expected = if end < start { 10 } else { 12 };
                same("the number of a file that was cut", expected, number)?;
            }
            table.unchanged("the table of a file that was cut")?;
        }
        let number = port.load_ppm(self.grid, table.lend(), file.see());
        same("the number of a file", said, number)?;
        file.unchanged("a file")?;
        if number != 0 {
            table.unchanged("the table of a refused file")?;
            return Ok(number);
        }
        let mut later = self.table.clone();
        let pixels = self.pixels().expect("pixels").as_chunks::<3>().0;
        for &pixel in pixels {
            add_one(self.grid, &mut later, pixel, 1);
        }
        table.expect("the table of a file", 0, &later)?;
        Ok(number)
    }

    /// The table "as its bare triples" give it, and their number.
    fn bare(&self, port: &dyn Port, number: u8, r: &mut Random) -> Result<(), Differs> {
        let Ok(bytes) = self.pixels() else {
            return Ok(());
        };
        let mut loaded = Buffer::of(&self.table, r);
        let mut bare = Buffer::of(&self.table, r);
        port.load_ppm(self.grid, loaded.lend(), &self.file);
        let said = port.load(self.grid, bare.lend(), bytes, false, &[]);
        same("the number of bare triples", number, said)?;
        bare.expect("the table of bare triples", 0, loaded.see())
    }
}

/// Loads a file, the header and the bytes of the colours from `split` on, into the table of the colours before.
pub fn ppm(
    port: &dyn Port,
    case: &Case,
    split: usize,
    header: &[u8],
    damages: &[Damage],
    tally: &mut Tally,
) -> Result<(), Differs> {
    let r = &mut Random(case.seed);
    let (before, colors) = case.input.colors.split_at(split);
    let mut ppm = Ppm {
        grid: case.grid,
        table: table_of(case.grid, before, &case.input.weights[..split]),
        file: [header, colors.as_flattened()].concat(),
    };
    for d in damages {
        ppm.damage(d, r);
    }
    tally.count("ppm_header", ppm.header(port)?);
    let number = ppm.load(port, r)?;
    tally.count("load_ppm", number);
    ppm.bare(port, number, r)
}
