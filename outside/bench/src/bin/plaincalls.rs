//! The baseline's calls alone, as the proved program `callcost` makes them: reads an image of 4,096 bytes and a script of 256 records from standard
//! input, makes the calls, and prints the sum of what they answer. `outside/bench/table` holds the two against each other.

use baseline::{boundary::step, image, State};
use std::io::Read;

fn main() {
    let mut input = Vec::new();
    std::io::stdin().read_to_end(&mut input).expect("standard input is read");
    assert_eq!(input.len(), 8_192, "an image of 4,096 bytes and 256 records of 16");
    let (rack, script) = input.split_at(4_096);
    let mut state = State::empty();
    image::load(rack, &mut state);
    let mut sum = 0u64;
    for record in script.chunks_exact(16) {
        let number = u16::from_le_bytes([record[2], record[3]]);
        sum += match record[0] {
            0 => 0,
            8 => u64::from(state.running()),
            9 => u64::from(state.standing(number).1.0),
            _ => u64::from(step(&mut state, record)),
        };
    }
    print!("{sum}");
}
