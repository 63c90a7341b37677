//! Times the port's float leaves beside libm's and the processor's own root: one driver, the same inputs, ratios.

#[path = "../tests/exhaustive/port.rs"]
mod port;
mod timing;

use std::hint::black_box;

const PASSES: usize = 200;

fn compare(
    name: &str,
    xs: &[f32],
    ys: &[f32],
    ours: impl Fn(f32, f32) -> f32,
    theirs: impl Fn(f32, f32) -> f32,
) {
    let pairs: Vec<_> = xs.iter().copied().zip(ys.iter().copied()).collect();
    timing::compare(
        name,
        &pairs,
        PASSES,
        |&(x, y)| {
            black_box(ours(black_box(x), black_box(y)));
        },
        |&(x, y)| {
            black_box(theirs(black_box(x), black_box(y)));
        },
    );
}

fn main() {
    let turn = timing::inputs(1, -3.2, 3.2);
    let far = timing::inputs(2, -1000.0, 1000.0);
    let wide = timing::inputs(3, -20.0, 20.0);
    let other = timing::inputs(4, -20.0, 20.0);
    let positive = timing::inputs(5, 0.0, 1000.0);
    println!("{:34} port / reference", "");
    compare("sinf against libm, one turn", &turn, &turn, |x, _| port::sinf(x), |x, _| libm::sinf(x));
    compare("sinf against libm, to 1000", &far, &far, |x, _| port::sinf(x), |x, _| libm::sinf(x));
    compare("cosf against libm, one turn", &turn, &turn, |x, _| port::cosf(x), |x, _| libm::cosf(x));
    compare("cosf against libm, to 1000", &far, &far, |x, _| port::cosf(x), |x, _| libm::cosf(x));
    compare("atanf against libm", &wide, &wide, |x, _| port::atanf(x), |x, _| libm::atanf(x));
    compare("atan2f against libm", &wide, &other, port::atan2f, libm::atan2f);
    compare("sqrtf against the instruction", &positive, &positive, |x, _| port::sqrtf(x), |x, _| x.sqrt());
    compare("sqrtf against libm", &positive, &positive, |x, _| port::sqrtf(x), |x, _| libm::sqrtf(x));
}
