//! The library's cost over the reference's, as one table that can be pasted into docs/PERFORMANCE.md.
//!
//! `bench [ROUNDS] [WORDS..]` prints the rows with one of the words in their subjects, or all of them. `over` in the
//! last column: over the bound. What a measurement should not depend on, and what is done about it:
//!
//! - Others on the machine disturb a measurement, for an instant or for seconds. There are many rounds, each with the
//!   rows in another order; in a round the two sides run in turn; the best run of each side counts.
//! - Memory stands elsewhere in each process, which matters by some hundredths. Each round is a process of its own.
//! - Code stands elsewhere in each program that it is linked into, which matters by up to a third: loops fit into the
//!   processor's lines of 64 octets or do not. Rounds take turns among four programs that differ in nothing else: in
//!   each of them all code stands sixteen octets further on. What is shown is the geometric mean of the four best runs.

mod measure;
mod rows;
mod stack;

use crate::generate::Random;
use measure::Work;
use rows::{Kind, Row};
use std::collections::HashMap;
use std::env;
use std::path::PathBuf;
use std::process::{Command, Stdio};

/// Rounds where no number of them is asked for.
const ROUNDS: u64 = 32;

/// The programs of the benchmark, which stand side by side.
const PROGRAMS: [&str; 4] = ["bench", "bench-16", "bench-32", "bench-48"];

/// A program of the benchmark: this macro with the number of octets that its code stands further on.
#[macro_export]
macro_rules! bench {
    ($further:literal) => {
        std::arch::global_asm!(
            ".section .text.further,\"axR\",@progbits",
            concat!(".balign 64\n.skip 64 + ", $further)
        );

        fn main() {
            $crate::bench::main();
        }
    };
}

/// The library's figure and the reference's.
type Figures = [f64; 2];

/// The figures of each row that was measured, by its subject.
type Measured = HashMap<String, Figures>;

/// The rows with one of the words in their subjects.
fn asked_for(words: &[String]) -> Vec<Row> {
    let mut rows = rows::all();
    rows.retain(|row| words.is_empty() || words.iter().any(|word| row.subject.contains(word)));
    rows
}

/// `bench round SEED WORDS..`: measures the rows once, in an order that the seed gives, and prints their figures.
fn round(seed: u64, words: &[String]) {
    let mut rows = asked_for(words);
    let mut works: Vec<(&str, &mut Work)> = Vec::new();
    for Row { subject, kind, .. } in &mut rows {
        if let Kind::Work(work) = kind {
            works.push((subject, work));
        }
    }
    Random::new(seed).shuffle(&mut works);
    for (subject, work) in works {
        let [library, reference] = work.figures();
        println!("{subject}\t{library}\t{reference}");
    }
}

/// The programs that were built.
fn programs() -> Vec<PathBuf> {
    let this = env::current_exe().expect("this program");
    let (built, missing): (Vec<_>, Vec<_>) =
        PROGRAMS.map(|name| this.with_file_name(name)).into_iter().partition(|program| program.exists());
    for program in missing {
        eprintln!("not built, and so without its rounds: {}", program.display());
    }
    built
}

/// Makes so many rounds.
fn rounds(number: u64, words: &[String]) -> Measured {
    let programs = programs();
    // The best of each program's rounds; the programs have their places.
    let mut best: HashMap<String, Vec<Option<Figures>>> = HashMap::new();
    for (seed, at) in (0..number).zip((0..programs.len()).cycle()) {
        let mut child = Command::new(&programs[at]);
        child.args(["round", &seed.to_string()]).args(words).stderr(Stdio::inherit());
        let output = child.output().expect("the program runs");
        assert!(output.status.success(), "a round ends well");
        for line in String::from_utf8(output.stdout).expect("text").lines() {
            let [subject, library, reference] = line.split('\t').collect::<Vec<_>>()[..] else {
                panic!("three columns")
            };
            let new = [library, reference].map(|figure| figure.parse::<f64>().expect("a figure"));
            let best = &mut best.entry(subject.into()).or_insert_with(|| vec![None; programs.len()])[at];
            *best = Some(best.map_or(new, |best| [best[0].min(new[0]), best[1].min(new[1])]));
        }
    }
    best.into_iter().map(|(subject, best)| (subject, mean(&best.into_iter().flatten().collect::<Vec<_>>()))).collect()
}

/// The geometric mean.
fn mean(figures: &[Figures]) -> Figures {
    [0, 1].map(|side| {
        let product: f64 = figures.iter().map(|figures| figures[side]).product();
        product.powf(1.0 / figures.len() as f64)
    })
}

/// A time in the unit that suits it.
fn time(nanoseconds: f64) -> String {
    if nanoseconds < 1e3 {
        format!("{nanoseconds:.1} ns")
    } else {
        format!("{:.1} µs", nanoseconds / 1e3)
    }
}

/// The figures of a row in its own measure; None where what it needs was not measured.
fn figures(row: &Row, measured: &Measured) -> Option<Figures> {
    let of = |subjects: &[String]| subjects.iter().map(|subject| measured.get(subject)).collect::<Option<Vec<_>>>();
    match &row.kind {
        Kind::Work(_) => measured.get(&row.subject).copied(),
        Kind::Spread(subjects) => {
            let of = of(subjects)?;
            Some([0, 1].map(|side| {
                let of = || of.iter().map(|figures| figures[side]);
                of().fold(0.0, f64::max) / of().fold(f64::MAX, f64::min)
            }))
        }
        Kind::Over(subjects) => {
            let of = of(subjects)?;
            Some([0, 1].map(|side| of[0][side] / of[1][side]))
        }
        Kind::Stack(call) => Some(stack::least(*call)),
    }
}

/// The columns of a row after the first.
fn columns(row: &Row, [library, reference]: Figures) -> [String; 5] {
    let (of_work, of_stack) = (matches!(row.kind, Kind::Work(_)), matches!(row.kind, Kind::Stack(_)));
    let plain = |figure: f64| if of_stack { format!("{figure} KiB") } else { format!("{figure:.2}") };
    let side = |figure: f64| if of_work { time(figure) } else { plain(figure) };
    let bounded = if of_work { library / reference } else { library };
    let ratio = if of_work { plain(bounded) } else { "–".into() };
    // As the table shows it, in hundredths.
    let over = row.bound.is_some_and(|bound| (bounded * 100.0).round() > bound * 100.0);
    let over = if over { "over" } else { "" };
    [side(library), side(reference), ratio, row.bound.map_or("–".into(), plain), over.into()]
}

pub fn main() {
    let mut words: Vec<String> = env::args().skip(1).collect();
    match words.first().map(String::as_str) {
        Some("round") => return round(words[1].parse().expect("a seed"), &words[2..]),
        Some("stack-of") => return stack::try_one(&words[1..]),
        _ => {}
    }
    let asked = words.first().and_then(|word| word.parse().ok());
    words.drain(..asked.is_some() as usize);
    let measured = rounds(asked.unwrap_or(ROUNDS), &words);
    println!("| Work | Library | Reference | Ratio | Bound | |\n|---|---:|---:|---:|---:|---|");
    for row in asked_for(&words) {
        if let Some(figures) = figures(&row, &measured) {
            println!("| {} | {} |", row.subject, columns(&row, figures).join(" | "));
        }
    }
    if words.is_empty() {
        println!("| `rt ci` from nothing | measured apart | – | – | 30 minutes, 4 GB | |");
        println!("| the longest crate of it, without its edits | measured apart | – | – | 2 minutes | |");
    }
}
