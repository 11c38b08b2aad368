//! Holds the model to the original: it has to agree as it is, and to differ with any of the patches of `mutated/`.
fn main() -> std::process::ExitCode {
    oracle::runner::main(&oracle::model::Model)
}
