//! The nearest of a terminal's colours, held to the rule of their levels, and frames as half blocks.
use seluvava::{Lent, Refused, terminal};
use std::io::{self, ErrorKind, Write};

/// The colour of a number, by the rule.
fn colour(number: u8) -> [u8; 3] {
    let level = |step: u8| [0, 95, 135, 175, 215, 255][usize::from(step)];
    match number {
        0..=15 => panic!("numbers 0 to 15 vary between terminals"),
        16..=231 => {
            let left = number - 16;
            [level(left / 36), level(left / 6 % 6), level(left % 6)]
        }
        232..=255 => [8 + 10 * (number - 232); 3],
    }
}

fn distance(x: [u8; 3], y: [u8; 3]) -> u32 {
    let square = |i: usize| u32::from(x[i].abs_diff(y[i])).pow(2);
    square(0) + square(1) + square(2)
}

#[test]
fn each_of_the_240_has_its_own_number() -> Result<(), Refused> {
    let numbers: Vec<u8> = (16..=255).collect();
    let palette: Vec<[u8; 3]> = numbers.iter().map(|&n| colour(n)).collect();
    assert_eq!(terminal::nearest(&palette)?, numbers);
    Ok(())
}

#[test]
fn none_is_closer_and_each_lower_number_is_farther() -> Result<(), Refused> {
    let levels: Vec<u8> = (0..=255).step_by(15).collect();
    for &red in &levels {
        for &green in &levels {
            let palette: Vec<[u8; 3]> = levels.iter().map(|&blue| [red, green, blue]).collect();
            for (&x, n) in palette.iter().zip(terminal::nearest(&palette)?) {
                let least = distance(x, colour(n));
                assert!((16..n).all(|m| distance(x, colour(m)) > least), "{x:?}");
                assert!((n..=255).all(|m| distance(x, colour(m)) >= least), "{x:?}");
            }
        }
    }
    Ok(())
}

#[test]
fn lengths() {
    let palette = Err(Refused::Length(Lent::Palette));
    assert_eq!(terminal::nearest(&[]), palette);
    assert_eq!(terminal::nearest(&[[0; 3]; 257]), palette);
    assert_eq!(terminal::nearest(&[[9; 3]; 256]), Ok(vec![232; 256]));
    let mut short = [7; 1];
    let refused = terminal::nearest_into(&[[0; 3]; 2], &mut short);
    let numbers = Err(Refused::Length(Lent::TerminalNumbers));
    assert_eq!((refused, short), (numbers, [7]));
    let mut long = [7; 4];
    assert_eq!(terminal::nearest_into(&[[255; 3]; 2], &mut long), Ok(()));
    assert_eq!(long, [231, 231, 7, 7]);
}

/// What a frame of these indices and width is, in black, white and red.
fn shown(indices: &[u8], width: usize) -> String {
    let palette = [[0, 0, 0], [255, 255, 255], [255, 0, 0]];
    let mut out = Vec::new();
    terminal::write_frame(&mut out, &palette, indices, width).unwrap();
    String::from_utf8(out).unwrap()
}

#[test]
fn half_blocks() {
    assert_eq!(shown(&[], 0), "");
    assert_eq!(shown(&[], 3), "");
    assert_eq!(
        shown(&[0, 1, 2, 2], 2),
        "\x1b[38;5;16m\x1b[48;5;196m▀\x1b[38;5;231m▀\x1b[0m\n"
    );
    // three rows of one pixel: the last has its upper half only
    assert_eq!(
        shown(&[1, 0, 2], 1),
        "\x1b[38;5;231m\x1b[48;5;16m▀\x1b[0m\n\x1b[38;5;196m▀\x1b[0m\n"
    );
    // one row
    assert_eq!(shown(&[2, 2, 2], 3), "\x1b[38;5;196m▀▀▀\x1b[0m\n");
}

#[test]
fn nothing_is_written_of_a_wrong_frame() {
    let palette = [[0, 0, 0], [255, 255, 255]];
    for (palette, indices, width) in [
        (&palette[..], &[0, 1, 2][..], 3),
        (&palette, &[0, 1, 1], 2),
        (&palette, &[0, 1, 1], 4),
        (&palette, &[0], 0),
        (&palette[..0], &[], 1),
    ] {
        let mut out = Vec::new();
        let wrong = terminal::write_frame(&mut out, palette, indices, width).unwrap_err();
        assert_eq!(wrong.kind(), ErrorKind::InvalidInput);
        assert_eq!(out, []);
    }
}

#[test]
fn what_the_writer_gives_comes_back() {
    struct Full;
    impl Write for Full {
        fn write(&mut self, _: &[u8]) -> io::Result<usize> {
            Err(ErrorKind::StorageFull.into())
        }
        fn flush(&mut self) -> io::Result<()> {
            Ok(())
        }
    }
    let wrong = terminal::write_frame(&mut Full, &[[0; 3]], &[0], 1).unwrap_err();
    assert_eq!(wrong.kind(), ErrorKind::StorageFull);
}
