//! STAND-IN, used only where the archive `libhost.a` is absent: std's functions behind our names.
//! A run with these does not compare the functions: a line NOT COMPARED says so, and the run fails.

pub fn log2(x: f32) -> f32 {
    x.log2()
}
pub fn exp2(x: f32) -> f32 {
    x.exp2()
}
pub fn exp(x: f32) -> f32 {
    x.exp()
}
pub fn exp64(x: f64) -> f64 {
    x.exp()
}
pub fn pow8(x: f32) -> f32 {
    8.0_f32.powf(x)
}
pub fn pow10(x: f32) -> f32 {
    10.0_f32.powf(x)
}
pub fn sqrt(x: f32) -> f32 {
    x.sqrt()
}
