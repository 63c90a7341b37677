//! Memory as words: that of each part of the Rust, and that of a whole craft.

use std::fmt::Debug;

use stable_flight::Guidance;
use stable_flight::guidance::copter::CopterGuidance;

use crate::debug_text::DebugText;
use crate::words::Writer;

/// Words in the memory of a craft, as `craft` writes it.
pub const CRAFT_WORDS: usize = 63;

/// Elapsed time: a flag and the value.
pub fn rate_divider(memory: &dyn Debug, out: &mut Writer) {
    let mut text = DebugText::of(memory);
    text.pass("RateDivider { elapsed: ");
    out.option(text.option(DebugText::float));
    text.pass(" }");
}

/// The previous error: a flag and two parts.
pub fn derivative(memory: &dyn Debug, out: &mut Writer) {
    derivative_part(&mut DebugText::of(memory), out);
}

fn derivative_part(text: &mut DebugText, out: &mut Writer) {
    text.pass("DerivativeState { previous_error: ");
    out.option_vec2(text.option(DebugText::vec2));
    text.pass(" }");
}

/// The integral.
pub fn altitude(memory: &dyn Debug, out: &mut Writer) {
    let mut text = DebugText::of(memory);
    text.pass("AltitudeController { integrated_error: ");
    out.float(text.float());
    text.pass(" }");
}

/// The integral, the derivative history, the shaped velocity, the commanded velocity.
pub fn lateral(memory: &dyn Debug, out: &mut Writer) {
    let mut text = DebugText::of(memory);
    text.pass("LateralController { integrated_error: ");
    out.vec2(text.vec2());
    text.pass(", derivative: ");
    derivative_part(&mut text, out);
    text.pass(", shaped_velocity_mps: ");
    out.option_vec2(text.option(DebugText::vec2));
    text.pass(", commanded_velocity_mps: ");
    out.vec2(text.vec2());
    text.pass(" }");
}

/// The estimate, the window, the ground altitude. Paused is always false here.
pub fn hover_wind(memory: &dyn Debug, out: &mut Writer) {
    let mut text = DebugText::of(memory);
    text.pass("HoverWind { estimator: WindEstimator { filter: ");
    out.option_wind(text.option(DebugText::wind_estimate));
    text.pass(", window: Window { elapsed_s: ");
    out.float(text.float());
    text.pass(", ticks: ");
    out.whole(text.whole());
    for name in ["specific_force_mps2", "ground_along_mps", "axis_x", "axis_y"] {
        text.pass(", ");
        text.pass(name);
        text.pass(": ");
        out.vec2(text.vec2());
    }
    text.pass(", axial_mps: ");
    out.float(text.float());
    text.pass(" } }, ground_altitude_m: ");
    out.option(text.option(DebugText::float));
    text.pass(", paused: false }");
}

/// The side, the latched heading, the estimate last weighed.
pub fn wind_heading(memory: &dyn Debug, out: &mut Writer) {
    wind_heading_part(&mut DebugText::of(memory), out);
}

fn wind_heading_part(text: &mut DebugText, out: &mut Writer) {
    text.pass("WindHeading { side: ");
    out.option(text.option(DebugText::float));
    text.pass(", target_rad: ");
    out.option(text.option(DebugText::float));
    text.pass(", weighed: ");
    out.option_wind(text.option(DebugText::wind_estimate));
    text.pass(" }");
}

/// The leg (a flag, its waypoint, its bearing as a flag and a value), the stuck time, yielding,
/// and the wingtip heading.
pub fn leg_heading(memory: &dyn Debug, out: &mut Writer) {
    let mut text = DebugText::of(memory);
    text.pass("LegHeading { leg: ");
    let leg = text.option(|text| {
        text.pass("Leg { to_m: ");
        let to_m = text.vec2();
        text.pass(", bearing_rad: ");
        let bearing_rad = text.option(DebugText::float);
        text.pass(" }");
        (to_m, bearing_rad)
    });
    out.option_vec2(leg.map(|(to_m, _)| to_m));
    out.option(leg.and_then(|(_, bearing_rad)| bearing_rad));
    text.pass(", stuck_s: ");
    out.float(text.float());
    text.pass(", yielding: ");
    out.flag(text.flag());
    text.pass(", wind: ");
    wind_heading_part(&mut text, out);
    text.pass(" }");
}

/// The whole memory of a craft. With none configured, every word is 0.
pub fn craft(guidance: Option<&CopterGuidance>, out: &mut Writer) {
    out.flag(guidance.is_some());
    let Some(guidance) = guidance else {
        (1..CRAFT_WORDS).for_each(|_| out.whole(0));
        return;
    };
    let saturation = guidance.saturation();
    out.flag(saturation.tilt);
    out.flag(saturation.thrust);
    let memory = guidance.memory();
    out.vec2(memory.tilt_rad);
    out.flag(memory.tilt_capped);
    out.vec2(memory.requested_accel_mps2);
    out.option(memory.altitude_target_m);
    out.float(memory.descent_speed_mps);
    rate_divider(memory.lateral_rate, out);
    out.float(memory.heading);
    leg_heading(memory.leg_heading, out);
    hover_wind(memory.wind, out);
    altitude(memory.altitude, out);
    lateral(memory.lateral, out);
}
