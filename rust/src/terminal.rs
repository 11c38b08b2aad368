//! The fixed colours of a terminal: a palette in their numbers, and frames as text.
//!
//! The common 256-colour terminal has 240 colours that are the same everywhere, numbers 16 to 255. [`nearest`] gives
//! each colour of a palette the number of the closest one, and [`write_frame`] shows a mapped frame by them.
//!
//! ```
//! use seluvava::{Grid, Table, terminal};
//!
//! let frame = [[0, 0, 0], [255, 255, 255], [250, 10, 0], [255, 255, 255]];
//! let mut table = Table::new(Grid::rgb());
//! table.load(&frame)?;
//! let map = table.cut(256)?.into_colour_map();
//!
//! assert_eq!(terminal::nearest(&frame)?, [16, 231, 196, 231]);
//! // two pixels wide: one line of two cells
//! terminal::write_frame(&mut std::io::stdout(), map.palette(), &map.map(&frame)?, 2)?;
//! # Ok::<(), Box<dyn std::error::Error>>(())
//! ```
use crate::{Lent, Refused, colour_map::MOST_COLOURS, sys};
use std::io::{self, ErrorKind, Write};

/// For each colour of a palette the number of the nearest of the 240 fixed colours: the one with the smallest squared
/// distance, the lowest number on a tie.
///
/// As text colour number n is the escape `ESC[38;5;nm`, as background `ESC[48;5;nm`.
///
/// # Errors
///
/// [`Refused::Length`] of [`Lent::Palette`] where the palette does not have 1 to 256 colours.
pub fn nearest(palette: &[[u8; 3]]) -> Result<Vec<u8>, Refused> {
    let mut numbers = vec![0; palette.len()];
    nearest_into(palette, &mut numbers)?;
    Ok(numbers)
}

/// Writes these numbers into the front of a list, and allocates nothing. Places past the palette's colours stay.
///
/// # Errors
///
/// [`Refused::Length`] of [`Lent::Palette`] where the palette does not have 1 to 256 colours, and of
/// [`Lent::TerminalNumbers`] where the list is shorter; then nothing is written.
pub fn nearest_into(palette: &[[u8; 3]], numbers: &mut [u8]) -> Result<(), Refused> {
    let wrong = if (1..=MOST_COLOURS).contains(&palette.len()) {
        Lent::TerminalNumbers
    } else {
        Lent::Palette
    };
    sys::nearest(palette, numbers).map_err(|refused| refused.or(|| Refused::Length(wrong)))
}

/// Writes a frame, given by the indices of its pixels row by row, as lines of half blocks.
///
/// A cell of the terminal is two pixels, one above the other: U+2580, the upper half of a block, in the colour of the
/// upper pixel on that of the lower one. Where the number of rows is odd, the last line has the upper half of its cells
/// only. Each line ends with the terminal's own colours.
///
/// # Errors
///
/// [`ErrorKind::InvalidInput`], and nothing is written, where the palette does not have 1 to 256 colours, an index is
/// not below the palette's length, or the indices are not rows of `width` pixels. And whatever the writer gives.
pub fn write_frame(
    writer: &mut impl Write,
    palette: &[[u8; 3]],
    indices: &[u8],
    width: usize,
) -> io::Result<()> {
    let numbers = nearest(palette).map_err(|refused| invalid(&refused.to_string()))?;
    if indices
        .iter()
        .any(|&index| usize::from(index) >= palette.len())
    {
        return Err(invalid("an index is not below the palette's length"));
    }
    if !indices.is_empty() && (width == 0 || indices.len() % width != 0) {
        return Err(invalid("the indices are not rows of that width"));
    }
    // a width of 0 has no pixels here, so that any other gives no line either
    for pair in indices.chunks(2 * width.max(1)) {
        let (upper, lower) = pair.split_at(width.min(pair.len()));
        writer.write_all(line_of(&numbers, upper, lower).as_bytes())?;
    }
    Ok(())
}

fn invalid(why: &str) -> io::Error {
    io::Error::new(ErrorKind::InvalidInput, why)
}

/// The line of two rows, of which the lower one may be missing. A colour is set only where it changes.
fn line_of(numbers: &[u8], upper: &[u8], lower: &[u8]) -> String {
    let number = |index: &u8| numbers[usize::from(*index)];
    let mut line = String::new();
    let mut before = [None; 2];
    for (at, index) in upper.iter().enumerate() {
        let now = [Some(number(index)), lower.get(at).map(number)];
        for (layer, escape) in [38, 48].into_iter().enumerate() {
            match now[layer] {
                Some(n) if now[layer] != before[layer] => {
                    line.push_str(&format!("\x1b[{escape};5;{n}m"));
                }
                _ => {}
            }
        }
        line.push('▀');
        before = now;
    }
    line.push_str("\x1b[0m\n");
    line
}
