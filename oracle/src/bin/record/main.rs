//! Writes the script that the proved program `replay` replays: calls with the rules' answers, and cases that are made
//! from a seed, with the original's. docs/REPLAY.md says what the lines mean. Standard error gets what `replay` has to
//! write.
mod answers;
mod calls;
mod cases;
mod lists;
mod script;

use script::Script;
use std::env;

/// The bytes of script for which `replay` has the room.
const MOST_BYTES: usize = 1 << 20;

fn main() {
    let seed = env::args()
        .nth(1)
        .map_or(1, |n| n.parse().expect("a number as seed"));
    let mut script = Script::default();
    script.case(&format!(
        "of the rules, and of quantette 0.6.0 with the seed {seed}"
    ));
    script.set("calls", &[0_u64; 6]);
    calls::write(&mut script);
    for case in cases::all(seed) {
        answers::write(&mut script, &case);
    }
    script.hold_calls();
    assert!(script.text.len() <= MOST_BYTES, "too many bytes");
    print!("{}", script.text);
    eprintln!("{}", script.agreed());
}
