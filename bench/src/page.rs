//! Fills the template of docs/SPEED.md: each line that is a word in braces gives way to what was measured.
use crate::{
    inputs::Input,
    report::{self, Row},
    side::Operation,
};
use std::{env, fs};

/// The processor's name and the number of its cores.
fn machine() -> String {
    let text = fs::read_to_string("/proc/cpuinfo").unwrap_or_default();
    let models: Vec<_> = text
        .lines()
        .filter(|line| line.starts_with("model name"))
        .collect();
    let model = models.first().and_then(|line| line.split_once(": "));
    format!(
        "{}, {} cores",
        model.map_or("unknown", |(_, name)| name),
        models.len()
    )
}

/// When, on what and with what: what is not asked of the machine is told by `bench/run`.
fn run() -> String {
    let told = |name| env::var(name).unwrap_or_else(|_| String::from("unknown"));
    format!(
        "- Date: {}\n- Processor: {}\n- Rust: {}\n- Kit: {}\n- Archive: sha256 {}\n",
        told("BENCH_DATE"),
        machine(),
        told("BENCH_RUSTC"),
        told("BENCH_KIT"),
        told("BENCH_ARCHIVE"),
    )
}

/// What is known of the frames.
fn frames(inputs: &[Input]) -> String {
    let mut text =
        String::from("| | colours | in runs of 64 pixels or more of one colour |\n|---|---|---|\n");
    for input in inputs {
        text += &format!(
            "| {} | {} | {} % |\n",
            input.name,
            input.colours(),
            input.flat()
        );
    }
    text
}

/// Whether the template gives a reason for an operation, under its name up to a comma or a bracket: one may do for
/// several rows, as for every k.
pub fn explains(template: &str, operation: Operation) -> bool {
    let name = operation.to_string();
    let end = name.find([',', '(']).unwrap_or(name.len());
    template.contains(&format!("**{}**", name[..end].trim_end()))
}

/// The cells that miss.
fn misses(rows: &[Row], inputs: &[Input]) -> String {
    let misses = report::misses(rows, inputs);
    match misses.is_empty() {
        true => String::from("None.\n"),
        false => misses.into_iter().map(|(_, line)| line + "\n").collect(),
    }
}

pub fn filled(template: &str, rows: &[Row], inputs: &[Input]) -> String {
    let line = |line: &str| match line {
        "{run}" => run(),
        "{frames}" => frames(inputs),
        "{tables}" => report::tables(rows, inputs).trim_end().to_string() + "\n",
        "{misses}" => misses(rows, inputs),
        other => format!("{other}\n"),
    };
    template.lines().map(line).collect()
}
