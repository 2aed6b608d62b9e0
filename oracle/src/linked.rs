//! The port's own functions, from `libhost.a`.

extern "C" {
    fn rk_log2(x: f32) -> f32;
    fn rk_exp2(x: f32) -> f32;
    fn rk_exp(x: f32) -> f32;
    fn rk_exp64(x: f64) -> f64;
    fn rk_pow8(x: f32) -> f32;
    fn rk_pow10(x: f32) -> f32;
    fn rk_sqrt(x: f32) -> f32;
}

pub fn log2(x: f32) -> f32 {
    unsafe { rk_log2(x) }
}
pub fn exp2(x: f32) -> f32 {
    unsafe { rk_exp2(x) }
}
pub fn exp(x: f32) -> f32 {
    unsafe { rk_exp(x) }
}
pub fn exp64(x: f64) -> f64 {
    unsafe { rk_exp64(x) }
}
pub fn pow8(x: f32) -> f32 {
    unsafe { rk_pow8(x) }
}
pub fn pow10(x: f32) -> f32 {
    unsafe { rk_pow10(x) }
}
pub fn sqrt(x: f32) -> f32 {
    unsafe { rk_sqrt(x) }
}
