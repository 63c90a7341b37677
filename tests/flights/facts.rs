//! Flights whose answers a reader may not expect: winds, a heading and a thrust that are no number, and zeros that keep
//! their sign. The port has to give the words that the Rust is known to give, and all of the oracle's answers.

use oracle_parts::config::{Fields, default_fields};
use oracle_parts::encode::{self, State, Waypoint};
use oracle_parts::records::{ABSOLUTE_ATTITUDE, ATTITUDE, WIND};

use crate::document;
use crate::edges;
use crate::program::Program;

const NAN: u32 = 0x7FC0_0000;
const INFINITY: u32 = 0x7F80_0000;
const NEGATIVE_ZERO: u32 = 0x8000_0000;

/// A flight, and of some of its answers, counted from 0, the words from one on.
struct Fact {
    name: &'static str,
    flight: Vec<Vec<u8>>,
    known: Vec<(usize, usize, Vec<u32>)>,
}

pub fn run(port: &Program) -> Result<bool, String> {
    let oracle = Program::oracle();
    let mut good = true;
    for fact in facts() {
        let flight = fact.flight.concat();
        let ours = port.answers(&flight)?;
        let equal = ours == oracle.answers(&flight)?;
        let known = fact.known.iter().all(|(answer, word, words)| has(&ours, *answer, *word, words));
        good &= equal && known;
        let verdict = if equal && known { "as known, and as the oracle's" } else { "NOT as known" };
        println!("{}: {} records, {verdict}", fact.name, fact.flight.len());
    }
    Ok(good)
}

/// Whether an answer has these words from its word `from` on.
fn has(written: &[u8], answer: usize, from: usize, words: &[u32]) -> bool {
    let Some(answer) = document::answers(written).nth(answer) else { return false };
    let bits = |place: usize| document::float(answer, 1 + 4 * place).to_bits();
    words.iter().enumerate().all(|(place, word)| bits(from + place) == *word)
}

/// The Rust's defaults with some fields replaced, as a record.
fn configure(replaced: &[(usize, f32)]) -> Vec<u8> {
    let mut fields: Fields = default_fields();
    replaced.iter().for_each(|(number, value)| fields[number - 1] = *value);
    encode::configure(&fields)
}

/// Upright at height `z`, all else 0.
fn upright(z: f32) -> State {
    let mut state = [0.0; 15];
    (state[2], state[9]) = (z, 1.0);
    state
}

fn level(dt: f32, state: &State) -> Vec<u8> {
    encode::call(ABSOLUTE_ATTITUDE, dt, state, &[0.0, 0.0, 0.0, 0.5])
}

fn facts() -> Vec<Fact> {
    vec![
        kept_zeros(),
        nan_wind(),
        infinite_covariance(47),
        infinite_covariance(48),
        infinite_wind(),
        infinite_heading(),
        nan_thrust(),
        kept_pitch(),
    ]
}

fn kept_zeros() -> Fact {
    let state = upright(0.0);
    let stick = encode::call(ATTITUDE, 0.5, &state, &[-0.0, 0.0, 0.0, 0.0]);
    let thrust = encode::call(ABSOLUTE_ATTITUDE, 0.5, &state, &[0.0, 0.0, 0.0, -0.0]);
    let known = vec![(1, 3, vec![NEGATIVE_ZERO]), (2, 3, vec![NEGATIVE_ZERO])];
    Fact { name: "thrust of -0", flight: vec![configure(&[]), stick, thrust], known }
}

/// Document 01 lets noises be 0.
fn nan_wind() -> Fact {
    let fields = [(44, 0.3), (45, 0.3), (46, 0.0), (47, 0.0), (48, 0.0)];
    let flight = vec![configure(&fields), encode::prime(&upright(0.0)), level(1.0, &upright(2.0)), vec![WIND]];
    Fact { name: "wind of NaN", flight, known: vec![(3, 0, vec![NAN; 6])] }
}

/// A variance that overflows is multiplied by 0 off the diagonal.
fn infinite_covariance(field: usize) -> Fact {
    let fields = [(44, 0.3), (45, 0.3), (field, 1e20)];
    let flight = vec![configure(&fields), encode::prime(&upright(0.0)), level(1.0, &upright(2.0)), vec![WIND]];
    let name = if field == 47 { "covariance of infinity by field 47" } else { "covariance of infinity by field 48" };
    Fact { name, flight, known: vec![(3, 2, vec![INFINITY, NAN, NAN, INFINITY])] }
}

/// Two forces whose sum overflows pass a gate whose square overflows; the wind stays so a window later.
fn infinite_wind() -> Fact {
    let mut pushed = upright(2.0);
    pushed[6] = 3e38;
    let flight = vec![
        configure(&[(44, 0.3), (45, 0.3), (49, 1e20)]),
        encode::prime(&upright(0.0)),
        level(0.125, &pushed),
        level(0.125, &pushed),
        vec![WIND],
        level(1.0, &upright(2.0)),
        vec![WIND],
    ];
    let velocity = vec![INFINITY, NAN];
    Fact { name: "wind of infinity", flight, known: vec![(4, 0, velocity.clone()), (6, 0, velocity)] }
}

/// A priming stores its heading as given, and nothing finite comes to replace it.
fn infinite_heading() -> Fact {
    let mut state = upright(0.0);
    state[14] = f32::INFINITY;
    let call = encode::call(ABSOLUTE_ATTITUDE, 0.5, &state, &[0.0, 0.0, f32::INFINITY, 0.5]);
    let flight = vec![configure(&[]), encode::prime(&state), call];
    Fact { name: "infinite heading", flight, known: vec![(2, 2, vec![INFINITY])] }
}

/// Gains whose products overflow to both infinities.
fn nan_thrust() -> Fact {
    let mut state = upright(3.0);
    state[5] = 5.0;
    let waypoint = Waypoint {
        position_m: [0.0, 0.0],
        velocity_mark: 0,
        velocity_mps: [0.0, 0.0],
        altitude_m: 5.0,
        cruise_speed_mps: 0.0,
        heading_mark: 0,
        heading_rad: 0.0,
    };
    let flight = vec![configure(&[(1, 3e38), (3, 3e38)]), encode::waypoint(0.5, &state, &waypoint)];
    Fact { name: "thrust of NaN", flight, known: vec![(1, 3, vec![NAN])] }
}

fn kept_pitch() -> Fact {
    let known = vec![(4, 1, vec![NEGATIVE_ZERO])];
    Fact { name: "pitch of -0 after underflow", flight: edges::kept_pitch(), known }
}
