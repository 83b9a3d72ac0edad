//! Runs two builds of `squares`, linked with two builds of the library, by turns, and prints the times and the ratios:
//!
//!     turns BEFORE AFTER RUNS

use compare::full_squares::TITLE;
use compare::timing::spread;
use std::process::{Command, Stdio};

/// One run of a program: microseconds a call of its library, and of the reference.
fn run(program: &str) -> [f64; 2] {
    let output = Command::new(program).stderr(Stdio::inherit()).output().expect("a program to run");
    assert!(output.status.success(), "{program}: {}", output.status);
    let text = String::from_utf8(output.stdout).expect("text");
    let figures: Vec<f64> = text.split_whitespace().map(|word| word.parse().expect("a number")).collect();
    figures.try_into().expect("two numbers")
}

fn main() {
    let words: Vec<String> = std::env::args().skip(1).collect();
    let [before, after, runs] = &words[..] else { panic!("turns BEFORE AFTER RUNS") };
    let runs: usize = runs.parse().expect("a number");
    // For each run, library and reference before, then library and reference after.
    let mut figures: Vec<[f64; 4]> = Vec::new();
    for turn in 0..runs {
        let ([a, b], [c, d]);
        if turn % 2 == 0 {
            [a, b] = run(before);
            [c, d] = run(after);
        } else {
            [c, d] = run(after);
            [a, b] = run(before);
        }
        figures.push([a, b, c, d]);
    }
    let figures = || figures.iter();
    println!("{TITLE}, the table not cleared before a call, each input's fastest time, {runs} runs by turns");
    println!("  library before, microseconds a call: {}", spread(figures().map(|f| f[0])));
    println!("  library after, microseconds a call:  {}", spread(figures().map(|f| f[2])));
    println!("  reference, microseconds a call:      {}", spread(figures().flat_map(|f| [f[1], f[3]])));
    println!("  library after / before:              {}", spread(figures().map(|f| f[2] / f[0])));
    println!("  library before / reference:          {}", spread(figures().map(|f| f[0] / f[1])));
    println!("  library after / reference:           {}", spread(figures().map(|f| f[2] / f[3])));
}
