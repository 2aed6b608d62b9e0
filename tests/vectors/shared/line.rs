//! A line of stored cases: the operation's number, its name, three operands and the answer, all in
//! hexadecimal. A float stands as its bits, every NaN as one pattern.

#[allow(dead_code)]
pub fn bits32(x: f32) -> u64 {
    if x.is_nan() {
        0x7fc0_0000
    } else {
        x.to_bits() as u64
    }
}

#[allow(dead_code)]
pub fn bits64(x: f64) -> u64 {
    if x.is_nan() {
        0x7ff8_0000_0000_0000
    } else {
        x.to_bits()
    }
}

pub fn print(number: u8, name: &str, operands: [u64; 3], answer: u64) {
    let [a, b, c] = operands;
    println!("{number:02x} {name:<12} {a:016x} {b:016x} {c:016x} {answer:016x}");
}
