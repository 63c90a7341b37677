//! The port's float leaves, from the static library of crates/floats_c.

unsafe extern "C" {
    fn tarragonhoe_sqrtf(x: f32) -> f32;
    fn tarragonhoe_sinf(x: f32) -> f32;
    fn tarragonhoe_cosf(x: f32) -> f32;
    fn tarragonhoe_atanf(x: f32) -> f32;
    fn tarragonhoe_atan2f(y: f32, x: f32) -> f32;
    fn tarragonhoe_narrow(x: f64) -> f32;
    fn tarragonhoe_abs(x: f32) -> f32;
    fn tarragonhoe_signum(x: f32) -> f32;
    fn tarragonhoe_min(x: f32, y: f32) -> f32;
    fn tarragonhoe_max(x: f32, y: f32) -> f32;
    fn tarragonhoe_clamp(x: f32, low: f32, high: f32) -> f32;
    fn tarragonhoe_bits(bits: u32) -> u32;
}

// Each function takes any number and asks nothing, so a call is safe.
macro_rules! safe {
    ($($name:ident = $symbol:ident($($arg:ident: $type:ty),*) -> $result:ty;)*) => {
        $(#[inline(always)]
        #[allow(dead_code)]
        pub fn $name($($arg: $type),*) -> $result {
            unsafe { $symbol($($arg),*) }
        })*
    };
}

safe! {
    sqrtf = tarragonhoe_sqrtf(x: f32) -> f32;
    sinf = tarragonhoe_sinf(x: f32) -> f32;
    cosf = tarragonhoe_cosf(x: f32) -> f32;
    atanf = tarragonhoe_atanf(x: f32) -> f32;
    atan2f = tarragonhoe_atan2f(y: f32, x: f32) -> f32;
    narrow = tarragonhoe_narrow(x: f64) -> f32;
    abs = tarragonhoe_abs(x: f32) -> f32;
    signum = tarragonhoe_signum(x: f32) -> f32;
    min = tarragonhoe_min(x: f32, y: f32) -> f32;
    max = tarragonhoe_max(x: f32, y: f32) -> f32;
    clamp = tarragonhoe_clamp(x: f32, low: f32, high: f32) -> f32;
    bits = tarragonhoe_bits(bits: u32) -> u32;
}
