//! Prints the stored cases of `draws_vectors`: SplitMix64's published outputs for the seeds 0 and
//! 1234567, each beside the state that its output function is applied to; two worked examples; and a
//! sample of the original's own answers (tests/answers/calls.txt, which the oracle prints).
//!
//!     rustc -O tests/vectors/draws.rs -o /tmp/draws && /tmp/draws > crates/draws_vectors/stdin

#[path = "shared/line.rs"]
mod line;

/// What SplitMix64 adds to its state before each output.
const STEP: u64 = 0x9e37_79b9_7f4a_7c15;

const SEED_0: [u64; 5] = [
    0xe220_a839_7b1d_cdaf,
    0x6e78_9e6a_a1b9_65f4,
    0x06c4_5d18_8009_454f,
    0xf88b_b8a8_724c_81ec,
    0x1b39_896a_51a8_749b,
];

const SEED_1234567: [u64; 5] = [
    6457827717110365317,
    3203168211198807973,
    9817491932198370423,
    4593380528125082431,
    16408922859458223821,
];

/// A line `name operands -> answer` for each call; numbers in decimal, floats by their bits.
const ANSWERS: &str = include_str!("../answers/calls.txt");

fn answered(name: &str) -> impl Iterator<Item = (Vec<&'static str>, &'static str)> + '_ {
    ANSWERS.lines().filter_map(move |call| {
        let (operands, answer) = call
            .strip_prefix(name)?
            .strip_prefix(' ')?
            .split_once(" -> ")?;
        Some((operands.split(' ').collect(), answer))
    })
}

fn main() {
    for (seed, outputs) in [(0u64, SEED_0), (1234567, SEED_1234567)] {
        let mut state = seed;
        for output in outputs {
            state = state.wrapping_add(STEP);
            line::print(0, "mix", [state, 0, 0], output);
        }
    }
    line::print(0, "mix", [0, 0, 0], 0);
    line::print(1, "sprinkle_key", [2, 5, 0], (1 << 62) + (1 << 60) + 5);
    let whole = |number: &str| number.parse::<u64>().unwrap();
    for (operands, answer) in answered("mix") {
        line::print(0, "mix", [whole(operands[0]), 0, 0], whole(answer));
    }
    for (operands, answer) in answered("sprinkle_key") {
        line::print(
            1,
            "sprinkle_key",
            [whole(operands[0]), whole(operands[1]), 0],
            whole(answer),
        );
    }
    for (operands, answer) in answered("random") {
        let bits = u64::from_str_radix(answer, 16).unwrap();
        line::print(
            2,
            "random",
            [whole(operands[0]), whole(operands[1]), 0],
            bits,
        );
    }
}
