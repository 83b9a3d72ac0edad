//! Times a check of 64 full squares, and prints the microseconds of processor time of a call, library then reference: the mean
//! over the inputs of each one's fastest time. `turns` runs two builds of this program.

use compare::{full_squares, timing};
use reference::table::NUMBERS;

fn main() {
    let inputs = full_squares::inputs();
    let (mut table, mut other) = (vec![0; NUMBERS], vec![0; NUMBERS]);
    let [ours, theirs] = timing::run(
        &inputs,
        |parts| feedcheck::check(&parts[0], &parts[1], &parts[2], &[], &mut table),
        |parts| reference::check(&parts[0], &parts[1], &parts[2], &[], &mut other),
    );
    println!("{ours} {theirs}");
}
