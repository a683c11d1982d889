//! Compares the library with the original Rust: generated drawables, every truncation and changes of every byte of small ones, generated
//! vertices, all halves and all floats; and with a plain hall book: lists of calls. Any difference ends the program with a non-zero status, and says what was asked.
//!
//!     differential [--short] [--seed S] [--drawables N] [--floats N] [--lists N]
//!
//! `--drawables N --floats 0` leaves the floats out; `--floats N` takes every 2^32 / N th. `--lists N` makes N lists of calls.
mod book;
mod conversions;
mod drawables;
mod lists;
mod sound;
mod vertices;

use std::time::Instant;

pub struct Figures {
    pub drawables: u64,
    pub small: u64,
    pub vertices: u64,
    pub runs: u64,
    pub floats: u64,
    pub lists: u64,
}

fn main() {
    let arguments: Vec<String> = std::env::args().skip(1).collect();
    let short = arguments.iter().any(|word| word == "--short");
    let value = |name: &str, otherwise: u64| {
        let place = arguments.iter().position(|word| word == name);
        place.map_or(otherwise, |place| arguments[place + 1].parse().unwrap_or_else(|e| panic!("{name}: {e}")))
    };
    let seed = value("--seed", 20_261_116);
    let whole = Figures { drawables: 1_000_000, small: 8, vertices: 400_000, runs: 20_000, floats: 1 << 32, lists: 100_000 };
    let part = Figures { drawables: 30_000, small: 1, vertices: 20_000, runs: 1_000, floats: 1 << 24, lists: 600 };
    let defaults = if short { part } else { whole };
    let figures = Figures {
        drawables: value("--drawables", defaults.drawables),
        floats: value("--floats", defaults.floats),
        lists: value("--lists", defaults.lists),
        ..defaults
    };
    println!("seed {seed}");
    stage("generated drawables", || drawables::generated(seed, figures.drawables));
    stage("small drawables, changed", || drawables::changed(seed, figures.small));
    stage("check 1", drawables::limits);
    stage("lists of calls", || lists::generated(seed, figures.lists));
    stage("the greatest image", || lists::limits(seed));
    stage("generated vertices", || vertices::generated(seed, figures.vertices));
    stage("runs of numbers", || conversions::runs(seed, figures.runs));
    stage("all halves and bytes", conversions::small_numbers);
    stage("rows of values", || conversions::rows(seed));
    if figures.floats > 0 {
        stage("floats", || conversions::floats(figures.floats));
    }
    println!("no difference");
}

fn stage(name: &str, run: impl FnOnce() -> String) {
    let start = Instant::now();
    let said = run();
    println!("{name}: {said} ({:.1} s)", start.elapsed().as_secs_f64());
}
