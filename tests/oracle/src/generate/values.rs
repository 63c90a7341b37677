//! Single values: tame, special, of any bits, of any size, and the legal ones of each field.

use super::random::Random;
use crate::config::{FIELDS, Fields, default_fields, field_holds};
use crate::records::{MAX_HEADING_RAD, MAX_STEP_S, MIN_STEP_S};

/// What a float is drawn from.
#[derive(Clone, Copy, PartialEq)]
pub enum Source {
    /// Plausible numbers.
    Tame,
    /// Values at which something changes: zeros, subnormals, infinities, NaNs, limits.
    Special,
    /// Any bits.
    Any,
    /// Any size between 2^-24 and 2^24, either sign.
    Wide,
}

pub const SOURCES: [Source; 4] = [Source::Tame, Source::Special, Source::Any, Source::Wide];

/// Bits of special values. The sign is drawn as well.
const SPECIAL: &[u32] = &[
    0x0000_0000, // 0
    0x0000_0001, // the smallest subnormal
    0x007F_FFFF, // the largest subnormal
    0x0080_0000, // the smallest normal
    0x1E3C_E508, // 1e-20, whose square underflows
    0x3980_0000, // 1/4096
    0x3D4C_CCCD, // 0.05
    0x3DCC_CCCD, // 0.1
    0x3E4C_CCCD, // 0.2
    0x3F00_0000, // 0.5
    0x3F35_04F3, // the root of 1/2
    0x3F80_0000, // 1
    0x3FC9_0FDB, // half of pi
    0x4000_0000, // 2
    0x4049_0FDB, // pi
    0x40C9_0FDB, // twice pi
    0x411C_E80A, // gravity
    0x4480_0000, // 1024
    0x4B80_0000, // 16,777,216
    0x5F80_0000, // 2^64, whose square overflows
    0x60AD_78EC, // 1e20
    0x7F61_B1E6, // 3e38
    0x7F7F_FFFF, // the largest
    0x7F80_0000, // infinity
    0x7F80_0001, // a signalling NaN
    0x7FBF_FFFF, // another
    0x7FC0_0000, // a quiet NaN
    0x7FFF_FFFF, // another
];

/// A special value, or now and then a neighbour of one.
pub fn special(random: &mut Random) -> f32 {
    let bits = random.pick(SPECIAL) | (random.bits() & 0x8000_0000);
    if random.chance(1, 4) { neighbour(random, f32::from_bits(bits)) } else { f32::from_bits(bits) }
}

/// A float whose bits are one more or one less.
pub fn neighbour(random: &mut Random, value: f32) -> f32 {
    let step = random.pick(&[1, u32::MAX]);
    f32::from_bits(value.to_bits().wrapping_add(step))
}

pub fn any(random: &mut Random) -> f32 {
    f32::from_bits(random.bits())
}

/// A float of either sign whose exponent is from -24 to 23.
pub fn wide(random: &mut Random) -> f32 {
    let exponent = 127 - 24 + random.below(48) as u32;
    f32::from_bits((random.bits() & 0x807F_FFFF) | exponent << 23)
}

/// A plausible float of at most `size`.
pub fn tame(random: &mut Random, size: f32) -> f32 {
    match random.below(20) {
        0 => 0.0,
        1 => random.between(-0.01, 0.01) * size,
        2..=4 => random.between(-size, size) as i32 as f32,
        _ => random.between(-size, size),
    }
}

pub fn float(random: &mut Random, source: Source, size: f32) -> f32 {
    match source {
        Source::Tame => tame(random, size),
        Source::Special => special(random),
        Source::Any => any(random),
        Source::Wide => wide(random),
    }
}

/// The first value drawn that holds, or `otherwise` where a hundred do not.
fn first_that(
    random: &mut Random,
    draw: impl Fn(&mut Random) -> f32,
    holds: impl Fn(f32) -> bool,
    otherwise: f32,
) -> f32 {
    (0..100).map(|_| draw(random)).find(|value| holds(*value)).unwrap_or(otherwise)
}

/// A time step that a call may have.
pub fn step(random: &mut Random, source: Source) -> f32 {
    time(random, source, MAX_STEP_S)
}

/// A time from the shortest step to `most`.
pub fn time(random: &mut Random, source: Source, most: f32) -> f32 {
    let legal = |dt: f32| dt >= MIN_STEP_S && dt <= most;
    if source == Source::Tame {
        return tame_step(random);
    }
    first_that(random, |random| float(random, source, 1.0), legal, MIN_STEP_S)
}

/// A step that a control loop might have.
pub fn tame_step(random: &mut Random) -> f32 {
    match random.below(8) {
        0 => random.between(MIN_STEP_S, 0.01),
        1 => random.between(0.01, 0.2),
        _ => random.pick(&[0.0025, 0.004, 0.01, 0.02, 0.05, 0.1, 1.0 / 64.0, 1.0 / 128.0]),
    }
}

/// A heading that a state may have: not finite, or at most 1,024 in size.
pub fn heading(random: &mut Random, source: Source) -> f32 {
    let legal = |heading: f32| !heading.is_finite() || heading.abs() <= MAX_HEADING_RAD;
    first_that(random, |random| float(random, source, 4.0), legal, 0.0)
}

/// Two floats of which the first is at most the second.
pub fn bounds(random: &mut Random, source: Source, size: f32) -> [f32; 2] {
    let not_nan = |value: f32| !value.is_nan();
    let draw = |random: &mut Random| float(random, source, size);
    let a = first_that(random, draw, not_nan, 0.0);
    let b = if random.chance(1, 8) { a } else { first_that(random, draw, not_nan, 0.0) };
    if a <= b { [a, b] } else { [b, a] }
}

/// A quaternion w, i, j, k: when tame, of a tilt that is small most of the time.
pub fn attitude(random: &mut Random, source: Source) -> [f32; 4] {
    if source != Source::Tame {
        return [(); 4].map(|_| float(random, source, 1.0));
    }
    let tilt = if random.chance(1, 6) { 3.0 } else { 0.5 };
    let [roll, pitch] = [(); 2].map(|_| random.between(-tilt, tilt));
    quaternion(roll, pitch, random.between(-3.2, 3.2))
}

/// The quaternion of a roll, pitch and heading.
pub fn quaternion(roll: f32, pitch: f32, heading: f32) -> [f32; 4] {
    let halves = |angle: f32| (libm::sinf(angle / 2.0), libm::cosf(angle / 2.0));
    let ((sr, cr), (sp, cp), (sh, ch)) = (halves(roll), halves(pitch), halves(heading));
    [
        cr * cp * ch + sr * sp * sh,
        sr * cp * ch - cr * sp * sh,
        cr * sp * ch + sr * cp * sh,
        cr * cp * sh - sr * sp * ch,
    ]
}

/// The 15 words of a state.
pub fn state(random: &mut Random, source: Source) -> [f32; 15] {
    let sizes = [30.0, 30.0, 30.0, 4.0, 4.0, 2.0, 3.0, 3.0, 2.0];
    let mut words = [0.0; 15];
    for (word, size) in words.iter_mut().zip(sizes) {
        *word = float(random, source, size);
    }
    words[9..13].copy_from_slice(&attitude(random, source));
    words[13] = float(random, source, 1.0);
    words[14] = heading(random, source);
    words
}

/// A flag, then the velocity and the covariance of a wind.
pub fn wind(random: &mut Random, source: Source) -> [u32; 7] {
    let present = u32::from(random.chance(7, 8));
    let mut words = [present, 0, 0, 0, 0, 0, 0];
    for (word, size) in words[1..].iter_mut().zip([8.0, 8.0, 4.0, 0.5, 0.5, 4.0]) {
        *word = float(random, source, size).to_bits();
    }
    if source == Source::Tame {
        words[3] &= 0x7FFF_FFFF;
        words[5] = words[4];
        words[6] &= 0x7FFF_FFFF;
    }
    words
}

/// Plausible values of each field, from the first to the last, and whether 0 turns it off.
const TAME_FIELDS: [(f32, f32, bool); FIELDS] = [
    (0.5, 3.0, false),  // 1 altitude p
    (0.0, 0.6, false),  // 2 altitude i
    (0.5, 4.0, false),  // 3 altitude d
    (0.0, 8.0, false),  // 4 altitude max integral
    (0.3, 0.7, false),  // 5 hover thrust
    (0.2, 3.0, false),  // 6 integration band
    (0.2, 1.2, false),  // 7 position p
    (0.5, 2.5, false),  // 8 velocity p
    (0.0, 0.8, false),  // 9 velocity i
    (0.0, 0.2, true),   // 10 velocity d
    (0.0, 15.0, false), // 11 lateral max integral
    (0.5, 4.0, true),   // 12 max accel
    (0.5, 4.0, true),   // 13 brake
    (0.3, 1.0, false),  // 14 braking share
    (0.0, 0.1, true),   // 15 navigation period
    (0.2, 1.2, false),  // 16 stick angle x
    (0.2, 1.2, false),  // 17 stick angle y
    (0.2, 3.0, false),  // 18 stick yaw rate
    (0.0, 0.2, false),  // 19 idle throttle
    (0.1, 0.9, false),  // 20 max tilt
    (0.5, 5.0, false),  // 21 max descent
    (0.3, 3.0, false),  // 22 descent accel
    (0.5, 5.0, false),  // 23 climb decel
    (0.3, 3.0, false),  // 24 altitude leash
    (0.3, 1.5, false),  // 25 land speed
    (0.1, 2.0, true),   // 26 waypoint yaw rate
    (0.2, 2.0, false),  // 27 heading rate
    (0.0, 6.0, false),  // 28 least leg
    (0.1, 1.0, false),  // 29 yield angle
    (0.0, 0.5, false),  // 30 yield rate
    (0.2, 2.0, true),   // 31 yield time
    (0.5, 3.0, true),   // 32 least wind
    (0.0, 3.1, false),  // 33 angle from the wind
    (0.05, 1.0, false), // 34 most spread of its direction
    (0.0, 0.5, false),  // 35 deadband
    (0.0, 3.0, false),  // 36 airborne height
    (0.0, 1.0, false),  // 37 hold band
    (0.0, 0.5, true),   // 38 min thrust
    (0.2, 2.0, true),   // 39 sink limit
    (0.0, 0.5, false),  // 40 sink gain
    (0.5, 1.0, false),  // 41 max boost thrust
    (2.0, 40.0, true),  // 42 ballistic x
    (2.0, 40.0, true),  // 43 ballistic y
    (0.05, 1.0, true),  // 44 momentum x
    (0.05, 1.0, true),  // 45 momentum y
    (0.05, 1.0, false), // 46 force noise
    (0.01, 0.5, false), // 47 process noise
    (1.0, 15.0, false), // 48 initial deviation
    (2.0, 8.0, false),  // 49 gate
    (0.5, 4.0, false),  // 50 most axial speed
];

/// A legal value of field `number`, 1 to 50.
pub fn field(random: &mut Random, source: Source, number: usize) -> f32 {
    let (low, high, off_at_zero) = TAME_FIELDS[number - 1];
    let default = default_fields()[number - 1];
    if source == Source::Tame {
        return match random.below(4) {
            0 => default,
            1 if off_at_zero => 0.0,
            _ => random.between(low, high),
        };
    }
    let draw = |random: &mut Random| float(random, source, high);
    first_that(random, draw, |value| field_holds(number, value), default)
}

/// A legal configuration, each field tame or, `part` times out of `whole`, from `source`.
pub fn fields(random: &mut Random, source: Source, part: usize, whole: usize) -> Fields {
    let mut fields = [0.0; FIELDS];
    for (index, value) in fields.iter_mut().enumerate() {
        let source = if random.chance(part, whole) { source } else { Source::Tame };
        *value = field(random, source, index + 1);
    }
    fields
}
