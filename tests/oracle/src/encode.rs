//! Writes the records of a flight file, the reverse of `records`. Floats keep their bits.

use crate::config::Fields;
use crate::records;
use crate::words::Writer;

/// The 15 words of a state.
pub type State = [f32; 15];

fn raw(out: &mut Writer, floats: &[f32]) {
    floats.iter().for_each(|value| out.whole(value.to_bits()));
}

fn record(kind: u8, floats: &[&[f32]]) -> Writer {
    let mut out = Writer::default();
    out.byte(kind);
    floats.iter().for_each(|floats| raw(&mut out, floats));
    out
}

pub fn configure(fields: &Fields) -> Vec<u8> {
    record(records::CONFIGURE, &[fields]).bytes
}

pub fn prime(state: &State) -> Vec<u8> {
    record(records::PRIME, &[state]).bytes
}

/// A call of kind 3, 6, 7 or 8: the floats of its command are `rest`.
pub fn call(kind: u8, dt: f32, state: &State, rest: &[f32]) -> Vec<u8> {
    record(kind, &[&[dt], state, rest]).bytes
}

/// A waypoint. Floats after a mark of 0 are not read, so any may stand there.
pub struct Waypoint {
    pub position_m: [f32; 2],
    pub velocity_mark: u8,
    pub velocity_mps: [f32; 2],
    pub altitude_m: f32,
    pub cruise_speed_mps: f32,
    pub heading_mark: u8,
    pub heading_rad: f32,
}

pub fn waypoint(dt: f32, state: &State, waypoint: &Waypoint) -> Vec<u8> {
    let mut out = record(records::WAYPOINT, &[&[dt], state, &waypoint.position_m]);
    out.byte(waypoint.velocity_mark);
    raw(&mut out, &waypoint.velocity_mps);
    raw(&mut out, &[waypoint.altitude_m, waypoint.cruise_speed_mps]);
    out.byte(waypoint.heading_mark);
    raw(&mut out, &[waypoint.heading_rad]);
    out.bytes
}
