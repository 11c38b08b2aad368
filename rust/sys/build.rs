//! Finds the archive with the proved code, or has it built, asks it for its version, and tells the linker where it is.
use std::{
    env,
    ffi::OsString,
    fs,
    io::{self, Write},
    path::{Path, PathBuf},
    process::Command,
    time::{Instant, SystemTime},
};

const VARIABLE: &str = "SELUVAVA_LIB_DIR";
const ARCHIVE: &str = "libseluvava.a";
const VERSION: &str = env!("CARGO_PKG_VERSION");

fn main() {
    println!("cargo::rerun-if-env-changed={VARIABLE}");
    // For any other target src/lib.rs has the message.
    let target = |name| env::var(name).unwrap_or_default();
    if target("CARGO_CFG_TARGET_ARCH") != "x86_64" || target("CARGO_CFG_TARGET_OS") != "linux" {
        return;
    }
    // The script is run in the crate's directory, which has the archive itself in a release.
    let inside = Path::new("lib");
    let found = match env::var_os(VARIABLE) {
        Some(directory) => given(Path::new(&directory)),
        None if inside.join(ARCHIVE).exists() => given(inside),
        None => of_project(Path::new("../..")),
    };
    match found.and_then(of_this_version) {
        Ok(directory) => {
            println!("cargo::rustc-link-search=native={}", directory.display());
            println!("cargo::rustc-link-lib=static=seluvava");
        }
        Err(reason) => println!(
            "cargo::error={reason}. Take the crate of a release, which has its archive inside; or run ./build in the \
             project's root, with the Rattle kit's `rt` on the path; or let {VARIABLE} name the directory of a \
             {ARCHIVE} of version {VERSION} that was built elsewhere, where a relative one is taken from rust/sys"
        ),
    }
}

/// The directory that is given, if it has an archive.
fn given(directory: &Path) -> Result<PathBuf, String> {
    let archive = directory.join(ARCHIVE);
    println!("cargo::rerun-if-changed={}", archive.display());
    let found = archive.canonicalize();
    let found = found.map_err(|e| format!("{} is not at hand: {e}", archive.display()))?;
    Ok(found.parent().expect("a file has a directory").into())
}

/// A directory with a copy of the project's own archive. Where a file of the code is newer, `rt` has to make it anew
/// first. It writes the archive anew each time, so it is the code whose changes cargo is told to look for.
fn of_project(root: &Path) -> Result<PathBuf, String> {
    let code = code_of(root);
    for source in &code {
        println!("cargo::rerun-if-changed={}", source.display());
    }
    let archive = root.join("target/staticlib").join(ARCHIVE);
    let built = fs::metadata(&archive).and_then(|file| file.modified());
    let is_older = |source: &PathBuf| {
        last_change(source).is_ok_and(|date| built.as_ref().is_ok_and(|b| date < *b))
    };
    if !code.iter().all(is_older) {
        by_the_kit(root, &archive)?;
    }
    let copies = out_dir();
    match fs::copy(&archive, copies.join(ARCHIVE)) {
        Ok(_) => Ok(copies),
        Err(e) => Err(format!("{} cannot be copied: {e}", archive.display())),
    }
}

/// The project's code: crates.txt, and of each crate what is proved and compiled, less what `rt` keeps beside it in out/.
fn code_of(root: &Path) -> Vec<PathBuf> {
    let mut code = vec![root.join("crates.txt")];
    for folder in fs::read_dir(root.join("crates")).into_iter().flatten() {
        let Ok(folder) = folder else { continue };
        let parts = ["src", "specs", "proofs"].map(|part| folder.path().join(part));
        code.extend(parts.into_iter().filter(|part| part.exists()));
    }
    code
}

/// When a file, or something below a directory, was last changed.
fn last_change(path: &Path) -> io::Result<SystemTime> {
    let about = fs::metadata(path)?;
    let mut latest = about.modified()?;
    if about.is_dir() {
        for entry in fs::read_dir(path)? {
            latest = latest.max(last_change(&entry?.path())?);
        }
    }
    Ok(latest)
}

/// Has `rt` make the project's archive, and copies it to its place. `rt` knows what has changed and proves that, and then
/// compiles all of it: half a minute, and from nothing some minutes. Where there is no `rt`, an archive that is there
/// already has to do.
fn by_the_kit(root: &Path, archive: &Path) -> Result<(), String> {
    let command = "rt lib";
    let exports = root.join("crates/seluvava_c");
    say(&format!(
        "{ARCHIVE} is not built, or older than the code: `{command}` proves and builds it, in half a minute or, from \
         nothing, some minutes"
    ));
    let begun = Instant::now();
    let mut rt = Command::new("rt");
    rt.arg("lib").current_dir(&exports);
    match rt.output() {
        Ok(ran) if ran.status.success() => {
            let seconds = begun.elapsed().as_secs();
            println!("cargo::warning=the code had changed: `{command}` took {seconds} s");
            let place = archive.parent().expect("it is in a directory");
            let copied = fs::create_dir_all(place)
                .and_then(|()| fs::copy(exports.join("out/libseluvava_c.a"), archive));
            match copied {
                Ok(_) => Ok(()),
                Err(e) => Err(format!("{} cannot be written: {e}", archive.display())),
            }
        }
        Ok(ran) => {
            // Cargo shows nothing else that a script prints.
            let said = [ran.stdout, ran.stderr].concat();
            for line in String::from_utf8_lossy(&said).lines() {
                println!("cargo::error={line}");
            }
            Err(format!("`{command}` failed: {}", ran.status))
        }
        Err(e) if archive.exists() => {
            println!(
                "cargo::warning=`{command}` cannot be run: {e}. {ARCHIVE} is taken as it is, and may be older than the \
                 code"
            );
            Ok(())
        }
        Err(e) => Err(format!(
            "{ARCHIVE} is not built, and `{command}` cannot be run: {e}"
        )),
    }
}

/// Says something at once where there is a terminal: cargo keeps what a script prints until it has ended.
fn say(words: &str) {
    if let Ok(mut terminal) = fs::OpenOptions::new().write(true).open("/dev/tty") {
        // Whoever does not read it reads cargo's warning at the end.
        let _ = writeln!(terminal, "seluvava-sys: {words}");
    }
}

/// The directory, if its archive is whole and of the version of these declarations.
fn of_this_version(directory: PathBuf) -> Result<PathBuf, String> {
    let archive = directory.join(ARCHIVE);
    let name = archive.display();
    let bytes = fs::read(&archive).map_err(|e| format!("{name} cannot be read: {e}"))?;
    if !is_whole(&bytes) {
        return Err(format!("{name} is damaged: it is no whole archive"));
    }
    // A release says beside the archive what `cksum` says of it.
    if let Ok(told) = fs::read_to_string(directory.join("cksum")) {
        if told.trim() != cksum(&bytes) {
            return Err(format!("{name} is damaged: its checksum is another"));
        }
    }
    if !has(&bytes, b"seluvava_version") {
        return Err(format!(
            "{name} is of an older version than this crate's {VERSION}: it has no call that answers its version"
        ));
    }
    match asked_for_version(&directory) {
        Some(Ok(version)) if version != VERSION => Err(format!(
            "{name} is of version {version}, and this crate of {VERSION}"
        )),
        Some(Err(said)) => Err(format!(
            "{name} is damaged: a program that asks it for its version does not run: {said}"
        )),
        _ => Ok(directory),
    }
}

/// Whether bytes are an archive from its first member to the end of its last.
fn is_whole(bytes: &[u8]) -> bool {
    let Some(mut rest) = bytes.strip_prefix(b"!<arch>\n") else {
        return false;
    };
    while let Some((header, members)) = rest.split_at_checked(60) {
        let length = std::str::from_utf8(&header[48..58]).ok();
        let length = length.and_then(|digits| digits.trim_end().parse::<usize>().ok());
        // A member of odd length has a byte behind it.
        match length.and_then(|length| members.get(length + length % 2..)) {
            Some(others) if header.ends_with(b"`\n") => rest = others,
            _ => return false,
        }
    }
    rest.is_empty() && bytes.len() > 8
}

/// Whether some bytes are among others.
fn has(bytes: &[u8], word: &[u8]) -> bool {
    bytes.windows(word.len()).any(|part| part == word)
}

/// What `cksum` prints of bytes from standard input: a checksum of them and of their number, and the number.
fn cksum(bytes: &[u8]) -> String {
    let take = |sum: u32, byte: &u8| {
        (0..8).fold(sum ^ (u32::from(*byte) << 24), |sum, _| {
            (sum << 1) ^ ((sum >> 31) * 0x04c1_1db7)
        })
    };
    let number = bytes.len().to_le_bytes();
    let digits = number.len() - bytes.len().leading_zeros() as usize / 8;
    let sum = bytes.iter().chain(&number[..digits]).fold(0, take);
    format!("{} {}", !sum, bytes.len())
}

/// The version that the archive answers, or why it answers none. Nothing where its code cannot be run here.
fn asked_for_version(directory: &Path) -> Option<Result<String, String>> {
    let set = |name| env::var_os(name).unwrap_or_default();
    if set("HOST") != set("TARGET") {
        return None;
    }
    let (program, source) = (out_dir().join("version"), out_dir().join("version.rs"));
    let text = "unsafe extern \"C\" { fn seluvava_version() -> u32; }\n\
                fn main() { print!(\"{}\", unsafe { seluvava_version() }) }\n";
    fs::write(&source, text).ok()?;
    let mut rustc = Command::new(set("RUSTC"));
    rustc.args(["--edition", "2024", "-l", "static=seluvava", "-L"]);
    rustc.arg(directory).arg("-o").arg(&program).arg(&source);
    if let Some(linker) = env::var_os("RUSTC_LINKER") {
        let mut chosen = OsString::from("linker=");
        chosen.push(linker);
        rustc.arg("-C").arg(chosen);
    }
    Some(output_of(&mut rustc).and_then(|_| {
        let said = output_of(&mut Command::new(&program))?;
        let number: u32 = said.parse().map_err(|_| format!("it answers {said}"))?;
        let (major, minor, patch) = (number / 10_000, number / 100 % 100, number % 100);
        Ok(format!("{major}.{minor}.{patch}"))
    }))
}

/// What a command writes, or why it failed, in one line.
fn output_of(command: &mut Command) -> Result<String, String> {
    let ran = command.output().map_err(|e| e.to_string())?;
    if ran.status.success() {
        return Ok(String::from_utf8_lossy(&ran.stdout).into_owned());
    }
    let said = String::from_utf8_lossy(&ran.stderr).replace('\n', " ");
    Err(format!("{}: {said}", ran.status))
}

fn out_dir() -> PathBuf {
    PathBuf::from(env::var_os("OUT_DIR").expect("cargo sets it"))
}
