// Finds the original's text, holds it to its checksums, and tells the place of each file to the compiler.
use std::{
    env,
    path::{Path, PathBuf},
    process::Command,
};

const COMPILER: &str = "rustc 1.95.0 ";

// The sha256 of each file below the original's `src`. The code includes one by its name in capitals: ORIGINAL_U8.
const SUMS: &str = include_str!("original.sha256");

// Where that `src` is looked for, if ORIGINAL_SRC says nothing: where ./fetch puts it, and beside the project.
const PLACES: [&str; 2] = ["original", "../../shared/docs/src/src"];

// What a command prints.
fn output(command: &mut Command) -> String {
    let ran = command
        .output()
        .unwrap_or_else(|e| panic!("{command:?}: {e}"));
    assert!(ran.status.success(), "{command:?} failed");
    String::from_utf8(ran.stdout).expect("text")
}

// The original's `src`.
fn sources() -> PathBuf {
    println!("cargo::rerun-if-env-changed=ORIGINAL_SRC");
    match env::var_os("ORIGINAL_SRC") {
        Some(place) if !place.is_empty() => place.into(),
        _ => {
            let found = PLACES.iter().map(Path::new).find(|place| place.is_dir());
            found.unwrap_or(Path::new(PLACES[0])).into()
        }
    }
}

fn main() {
    let compiler = output(Command::new(env::var_os("RUSTC").expect("RUSTC")).arg("--version"));
    assert!(
        compiler.starts_with(COMPILER),
        "the judge's compiler is {COMPILER}and not {compiler}"
    );

    // The script is run in the package's directory.
    let sources = sources();
    for line in SUMS.lines() {
        let (sum, file) = line.split_once("  ").expect("a sum and a file");
        let place = sources.join(file);
        let place = place.canonicalize().unwrap_or_else(|e| {
            panic!(
                "{} of the original is not at hand ({e}); oracle/fetch puts it there, or ORIGINAL_SRC says where its \
                 src is",
                place.display()
            )
        });
        let found = output(Command::new("sha256sum").arg(&place));
        assert!(
            found.starts_with(sum),
            "{file} is not the original's: {found}"
        );
        let name = place.file_stem().expect("a name").to_string_lossy();
        println!("cargo::rerun-if-changed={}", place.display());
        println!(
            "cargo::rustc-env=ORIGINAL_{}={}",
            name.to_uppercase(),
            place.display()
        );
    }
}
