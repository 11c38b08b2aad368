//! Writes the frames as PPM files into the directory that is named: the benchmark's three, a screen in a theme of 16
//! colours, and one in black and white.
#[allow(dead_code)]
#[path = "../src/inputs.rs"]
mod inputs;

use inputs::{Colour, HEIGHT, WIDTH};
use std::{env, fs, path::Path};

/// A dark theme: two backgrounds, four greys, two whites and eight inks.
const THEME: [Colour; 16] = [
    [30, 30, 46],
    [24, 24, 37],
    [49, 50, 68],
    [69, 71, 90],
    [108, 112, 134],
    [147, 153, 178],
    [186, 194, 222],
    [205, 214, 244],
    [243, 139, 168],
    [250, 179, 135],
    [249, 226, 175],
    [166, 227, 161],
    [148, 226, 213],
    [137, 180, 250],
    [203, 166, 247],
    [245, 194, 231],
];

/// Letters of one ink each with hard edges, on the first background, and on the second in the right third.
fn theme(i: usize) -> Colour {
    let (x, y) = (i % WIDTH, i / WIDTH);
    let (column, row) = (x / 10, y / 20);
    let cell = (column * 7919 + row * 104_729) % 997;
    let on_letter = cell % 3 != 0 && (x % 10 * 5 + y % 20 * 3 + cell) % 7 == 0;
    match on_letter {
        true => THEME[2 + cell % 14],
        false => THEME[usize::from(x >= 1280)],
    }
}

/// The same letters, black on white.
fn paper(i: usize) -> Colour {
    match THEME[..2].contains(&theme(i)) {
        true => [255; 3],
        false => [0; 3],
    }
}

fn main() {
    let directory = env::args().nth(1).expect("a directory");
    let mut frames: Vec<_> = inputs::all().map(|input| (input.name, input.frame)).into();
    frames.push(("theme", (0..WIDTH * HEIGHT).map(theme).collect()));
    frames.push(("paper", (0..WIDTH * HEIGHT).map(paper).collect()));
    for (name, frame) in frames {
        let mut file = format!("P6\n{WIDTH} {HEIGHT}\n255\n").into_bytes();
        file.extend(frame.as_flattened());
        let place = Path::new(&directory).join(format!("{name}.ppm"));
        fs::write(place, file).expect("the file");
    }
}
