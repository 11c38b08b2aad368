//! Holds the static library to the original: `runner` says which arguments there are.
mod library;

fn main() -> std::process::ExitCode {
    oracle::runner::main(&library::Library)
}
