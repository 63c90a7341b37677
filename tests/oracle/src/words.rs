//! Words: 32 bits each, low byte first, either the bits of a float or a whole number.

use stable_flight::estimation::wind::WindEstimate;
use stable_flight::nalgebra::{Matrix2, Quaternion, UnitQuaternion};
use stable_flight::{Vec2, Vec3, VehicleState};

/// Every NaN that the oracle writes has these bits, since document 01 leaves a NaN's bits open.
pub const NAN_BITS: u32 = 0x7FC0_0000;

/// Written for a result that the Rust does not give because it would panic. No float that the
/// oracle writes has these bits.
pub const NO_RESULT: u32 = 0xFFFF_FFFF;

/// The bits of `value`, a NaN made canonical.
pub fn canonical_bits(value: f32) -> u32 {
    if value.is_nan() { NAN_BITS } else { value.to_bits() }
}

/// Reads the words of one call or record in order.
pub struct Reader<'a> {
    bytes: &'a [u8],
}

impl<'a> Reader<'a> {
    pub fn new(bytes: &'a [u8]) -> Self {
        Reader { bytes }
    }

    pub fn byte(&mut self) -> u8 {
        let (&first, rest) = self.bytes.split_first().expect("the length was checked");
        self.bytes = rest;
        first
    }

    pub fn whole(&mut self) -> u32 {
        let (word, rest) = self.bytes.split_first_chunk().expect("the length was checked");
        self.bytes = rest;
        u32::from_le_bytes(*word)
    }

    pub fn float(&mut self) -> f32 {
        f32::from_bits(self.whole())
    }

    pub fn flag(&mut self) -> bool {
        self.whole() != 0
    }

    pub fn vec2(&mut self) -> Vec2 {
        Vec2::new(self.float(), self.float())
    }

    pub fn vec3(&mut self) -> Vec3 {
        Vec3::new(self.float(), self.float(), self.float())
    }

    /// Parts w, i, j, k, taken as they are.
    pub fn attitude(&mut self) -> UnitQuaternion<f32> {
        let (w, i, j, k) = (self.float(), self.float(), self.float(), self.float());
        UnitQuaternion::new_unchecked(Quaternion::new(w, i, j, k))
    }

    /// The 60 bytes of a state. Guidance reads no other field of `VehicleState`.
    pub fn state(&mut self) -> VehicleState {
        VehicleState {
            position_m: self.vec3(),
            velocity_mps: self.vec3(),
            acceleration_mps2: self.vec3(),
            attitude: self.attitude(),
            angular_velocity_radps: Vec3::new(0.0, 0.0, self.float()),
            heading_rad: self.float(),
            ..Default::default()
        }
    }

    /// Entries 00, 01, 10, 11.
    pub fn matrix2(&mut self) -> Matrix2<f32> {
        let entries = [self.vec2(), self.vec2()];
        Matrix2::from_fn(|row, column| entries[row][column])
    }

    /// A flag, then the velocity and the covariance.
    pub fn wind_estimate(&mut self) -> Option<WindEstimate> {
        let present = self.flag();
        let estimate = WindEstimate { velocity_mps: self.vec2(), covariance_m2ps2: self.matrix2() };
        present.then_some(estimate)
    }
}

/// Writes words in order.
#[derive(Default)]
pub struct Writer {
    pub bytes: Vec<u8>,
}

impl Writer {
    pub fn byte(&mut self, byte: u8) {
        self.bytes.push(byte);
    }

    pub fn whole(&mut self, word: u32) {
        self.bytes.extend_from_slice(&word.to_le_bytes());
    }

    pub fn float(&mut self, value: f32) {
        self.whole(canonical_bits(value));
    }

    pub fn flag(&mut self, flag: bool) {
        self.whole(flag.into());
    }

    pub fn vec2(&mut self, v: Vec2) {
        v.iter().for_each(|part| self.float(*part));
    }

    pub fn vec3(&mut self, v: Vec3) {
        v.iter().for_each(|part| self.float(*part));
    }

    /// A flag and the value. Where there is none, every word of it is 0.
    pub fn option(&mut self, value: Option<f32>) {
        self.flag(value.is_some());
        self.float(value.unwrap_or(0.0));
    }

    pub fn option_vec2(&mut self, value: Option<Vec2>) {
        self.flag(value.is_some());
        self.vec2(value.unwrap_or_default());
    }

    pub fn option_wind(&mut self, value: Option<WindEstimate>) {
        self.flag(value.is_some());
        self.vec2(value.map(|w| w.velocity_mps).unwrap_or_default());
        self.matrix2(&value.map(|w| w.covariance_m2ps2).unwrap_or_default());
    }

    /// Entries 00, 01, 10, 11.
    pub fn matrix2(&mut self, m: &Matrix2<f32>) {
        for at in [(0, 0), (0, 1), (1, 0), (1, 1)] {
            self.float(m[at]);
        }
    }
}
