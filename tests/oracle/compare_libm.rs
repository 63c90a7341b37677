//! Compares the libm that the oracle is built over with another one: the functions of one
//! argument on every f32 (sine and cosine up to 1,024, as document 01 has it), `atan2f` on 200
//! million pairs. `against-nalgebra` compiles and runs it under EVERY=1.

const INFINITY_BITS: u32 = 0x7F80_0000;
const LARGEST_BITS: u32 = 0x7F7F_FFFF;
const BITS_OF_1024: u32 = 0x4480_0000;

fn same(a: f32, b: f32) -> bool {
    a.to_bits() == b.to_bits() || (a.is_nan() && b.is_nan())
}

/// Both signs of all floats up to the one with the bits `most`, infinity and a NaN.
fn compare(name: &str, ours: fn(f32) -> f32, theirs: fn(f32) -> f32, most: u32) -> u64 {
    let (mut arguments, mut different) = (0_u64, 0);
    for size in (0..=most).chain(INFINITY_BITS..=INFINITY_BITS + 1) {
        for bits in [size, size | 0x8000_0000] {
            let x = f32::from_bits(bits);
            arguments += 1;
            different += u64::from(!same(ours(x), theirs(x)));
        }
    }
    println!("{name}: {arguments} arguments, {different} differ");
    different
}

/// Pairs of any bits, and in every other pair exponents near 0.
fn compare_atan2f() -> u64 {
    let (mut counter, mut different) = (0_u64, 0);
    let pairs = 200_000_000;
    for pair in 0..pairs {
        counter = counter.wrapping_add(0x9E37_79B9_7F4A_7C15);
        let mut bits = (counter ^ (counter >> 32)).wrapping_mul(0xD6E8_FEB8_6659_FD93);
        bits ^= bits >> 32;
        if pair % 2 == 0 {
            bits = (bits & 0x8FFF_FFFF_8FFF_FFFF) | 0x3800_0000_3800_0000;
        }
        let (y, x) = (f32::from_bits(bits as u32), f32::from_bits((bits >> 32) as u32));
        different += u64::from(!same(ours::atan2f(y, x), theirs::atan2f(y, x)));
    }
    println!("atan2f: {pairs} pairs, {different} differ");
    different
}

fn main() {
    let different = compare("sinf", ours::sinf, theirs::sinf, BITS_OF_1024)
        + compare("cosf", ours::cosf, theirs::cosf, BITS_OF_1024)
        + compare("atanf", ours::atanf, theirs::atanf, LARGEST_BITS)
        + compare("sqrtf", ours::sqrtf, theirs::sqrtf, LARGEST_BITS)
        + compare_atan2f();
    std::process::exit(i32::from(different > 0));
}
