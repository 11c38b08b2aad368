//! Makes PPM files.
use super::{Grids, Maker, damages};
use crate::{
    answer::Input,
    case::{Case, Kind},
    random::Random,
};

/// Bytes that are no whitespace: VT, FF, 0, the other ends of lines and blanks, and signs.
const NO_WHITESPACE: [u8; 10] = *b"\x0b\x0c\x00\x85\xa0\x1a-+,x";

/// Numbers that some width of a machine's numbers takes for n, and the largest.
fn too_large(r: &mut Random, n: u128) -> u128 {
    let bits = r.one_of(&[16, 32, 64, 96]);
    r.one_of(&[(1 << bits) + n, (1 << bits) - 1, u128::MAX])
}

/// A comment with its end.
fn comment(r: &mut Random, header: &mut Vec<u8>) {
    header.push(b'#');
    for _ in 0..r.from(0, 6) {
        let any = r.draw() as u8;
        header.push(r.one_of(&[b' ', b'#', b'7', any]));
    }
    header.push(r.one_of(b"\r\n"));
}

/// Whitespace and comments in any order.
fn parts(r: &mut Random, header: &mut Vec<u8>) {
    let count = r.one_of(&[1, 1, 1, 2, 3, 5]);
    let whitespace = r.from(0, count - 1);
    for i in 0..count {
        if i == whitespace || r.once_in(2) {
            header.push(r.one_of(b" \t\r\n"));
        } else {
            comment(r, header);
        }
    }
}

/// A gap; at times one that is none: nothing, comments alone, no whitespace, or a comment without its end.
fn gap(r: &mut Random, header: &mut Vec<u8>) {
    if !r.once_in(16) {
        return parts(r, header);
    }
    match r.from(0, 3) {
        0 => {}
        1 => (0..r.from(1, 2)).for_each(|_| comment(r, header)),
        2 => {
            parts(r, header);
            header.push(r.one_of(&NO_WHITESPACE));
        }
        _ => header.extend(b" # "),
    }
}

fn number(r: &mut Random, n: u128, header: &mut Vec<u8>) {
    let zeros = r.one_of(&[0, 0, 0, 1, 2, 40]);
    header.extend(std::iter::repeat_n(b'0', zeros));
    header.extend(n.to_string().bytes());
}

/// Width and height of so many pixels; at times another size.
fn sides(r: &mut Random, pixels: usize) -> [u128; 2] {
    let divisors: Vec<usize> = (1..=pixels).filter(|n| pixels.is_multiple_of(*n)).collect();
    let mut sides = match divisors[..] {
        [] => [1, 1],
        _ => {
            let width = r.one_of(&divisors);
            [width as u128, (pixels / width) as u128]
        }
    };
    if r.once_in(6) {
        let which = r.from(0, 1);
        let old = sides[which];
        let large = too_large(r, old);
        sides[which] = r.one_of(&[0, old - 1, old + 1, 65_535, 65_536, 65_537, large]);
    }
    sides
}

fn maximum(r: &mut Random) -> u128 {
    if !r.once_in(8) {
        return 255;
    }
    let large = too_large(r, 255);
    r.one_of(&[0, 1, 25, 254, 256, 2_550, 65_535, 65_536, large])
}

/// A header for so many pixels, with whitespace and comments wherever they may stand, and at times with a flaw.
pub fn header(r: &mut Random, pixels: usize) -> Vec<u8> {
    let other = [b"P5".as_slice(), b"P3", b"p6", b"P", b" P6", b"P66"];
    let mut header = match r.once_in(24) {
        true => r.one_of(&other).to_vec(),
        false => b"P6".to_vec(),
    };
    let [width, height] = sides(r, pixels);
    for n in [width, height, maximum(r)] {
        gap(r, &mut header);
        number(r, n, &mut header);
    }
    match r.from(0, 24) {
        0 => comment(r, &mut header),
        1 => header.push(r.one_of(&NO_WHITESPACE)),
        2 => {}
        _ => header.push(r.one_of(b" \t\r\n")),
    }
    header
}

/// A colour whose bytes could stand in a header.
fn like_a_header(r: &mut Random) -> [u8; 3] {
    [(); 3].map(|()| r.one_of(b" \t\r\n#0256P"))
}

/// The weight of the table's first colour with which the total after the file is the largest, or one or two off.
fn at_the_limit(r: &mut Random, input: &mut Input, split: usize) {
    let pixels = input.colors.len() - split;
    let others: u64 = input.weights[1..split].iter().map(|&w| u64::from(w)).sum();
    let limit = u64::from(u32::MAX) + 2 - r.from(0, 4) as u64;
    let weight = limit.checked_sub(others + pixels as u64);
    input.weights[0] = weight.map_or(0, |w| w.min(u32::MAX.into()) as u32);
}

/// A file over a table, at any of the 343 grids, those of at most 4,096 bins more often; one time in three with a total
/// at the limit, and one time in two with something damaged.
pub fn one(m: &mut Maker<'_>, i: usize) -> Case {
    let (before, pixels) = (m.r.from(0, 6), m.r.from(0, 24));
    let most = m.r.one_of(&[1, 1000, 100_000_000]);
    let color =
        m.r.one_of(&[Random::color, Random::lattice_color, like_a_header]);
    let mut input = m.input(before + pixels, color, |r| r.from(0, most) as u32);
    input.weights[before..].fill(1);
    if before > 0 && m.r.once_in(3) {
        at_the_limit(&mut m.r, &mut input, before);
    }
    let every = Grids::all();
    let grid = match i % 16 {
        0 => every.all[i / 16 % every.all.len()],
        _ => every.light[i % every.light.len()],
    };
    let kind = Kind::Ppm {
        split: before,
        header: header(&mut m.r, pixels),
        damages: Vec::new(),
    };
    let mut case = m.case(grid, 1, input, kind);
    let count = m.r.one_of(&[0, 0, 0, 1, 1, 2]);
    let made = (0..count).map(|_| damages::one(&case, &mut m.r)).collect();
    if let Kind::Ppm { damages, .. } = &mut case.kind {
        *damages = made;
    }
    case
}
