//! Compares the port's float leaves with libm's and with Rust's own, on every `f32` where there is one argument.
//!
//! A line for each function: how many inputs, how many answers differ (two NaNs count alike), and a digest of the port's
//! answers that does not depend on the order in which they were worked out.

#[allow(dead_code)]
#[path = "../command.rs"]
mod command;
#[path = "../mix.rs"]
mod mix;
mod port;
#[path = "../progress.rs"]
mod progress;

use std::process::ExitCode;
use std::thread;

use mix::mix;
use progress::Progress;

/// Inputs after which a worker says how far it is.
const STRETCH: u64 = 1 << 20;

/// A NaN of any kind as 7FC00000.
fn canonical(x: f32) -> u32 {
    if x.is_nan() { 0x7fc0_0000 } else { x.to_bits() }
}

#[derive(Default, Clone, Copy)]
struct Tally {
    count: u64,
    different: u64,
    digest: u64,
    first: Option<(u64, u32, u32)>,
}

impl Tally {
    /// Takes in the answers to one input, which `key` tells from the others.
    #[inline(always)]
    fn take(&mut self, key: u64, ours: u32, theirs: u32) {
        self.count += 1;
        self.digest = self.digest.wrapping_add(mix(key ^ (u64::from(ours) << 32)));
        if ours != theirs {
            self.different += 1;
            self.first = self.first.or(Some((key, ours, theirs)));
        }
    }

    fn and(self, other: Tally) -> Tally {
        Tally {
            count: self.count + other.count,
            different: self.different + other.different,
            digest: self.digest.wrapping_add(other.digest),
            first: self.first.or(other.first),
        }
    }
}

/// Splits 0..end over the machine's processors and adds up their tallies. `name` is of what is worked out.
fn over(name: &str, end: u64, visit: impl Fn(u64, &mut Tally) + Copy + Send) -> Tally {
    let workers = thread::available_parallelism().map_or(1, |n| n.get() as u64);
    let chunk = end.div_ceil(workers);
    let progress = &Progress::new(name, end, "inputs");
    let run = move |worker: u64| {
        let mut tally = Tally::default();
        let (mut done, end) = (worker * chunk, ((worker + 1) * chunk).min(end));
        while done < end {
            let stretch = STRETCH.min(end - done);
            (done..done + stretch).for_each(|i| visit(i, &mut tally));
            progress.add(stretch);
            done += stretch;
        }
        tally
    };
    let handles: Vec<_> = thread::scope(|scope| {
        let started: Vec<_> = (0..workers).map(|worker| scope.spawn(move || run(worker))).collect();
        started.into_iter().map(|handle| handle.join().expect("a worker ended early")).collect()
    });
    handles.into_iter().fold(Tally::default(), Tally::and)
}

/// Prints a function's line, and says whether nothing differed.
fn report(name: &str, tally: Tally) -> bool {
    println!("{name}: {} inputs, {} differences, digest {:016x}", tally.count, tally.different, tally.digest);
    if let Some((key, ours, theirs)) = tally.first {
        println!("  first at {key:016x}: port {ours:08x}, reference {theirs:08x}");
    }
    tally.different == 0
}

/// A function of one `f32` on every pattern that `wanted` takes.
fn every(
    name: &str,
    ours: impl Fn(f32) -> f32 + Copy + Send,
    theirs: impl Fn(f32) -> f32 + Copy + Send,
    wanted: impl Fn(f32) -> bool + Copy + Send,
) -> bool {
    let tally = over(name, 1 << 32, move |i, tally| {
        let x = f32::from_bits(i as u32);
        if wanted(x) {
            tally.take(i, canonical(ours(x)), canonical(theirs(x)));
        }
    });
    report(name, tally)
}

/// Some 200 values: zeros, subnormals, edges of binades, multiples of π/4, thresholds of the functions with their
/// neighbours, largest values, infinities and NaN patterns, each with both signs.
fn special() -> Vec<f32> {
    let patterns = [
        0x0000_0000u32, 0x0000_0001, 0x0000_0002, 0x007f_ffff, 0x0080_0000, 0x0080_0001, 0x00ff_ffff, 0x0d80_0000,
        0x1f80_0000, 0x2000_0000, 0x3200_0000, 0x337f_ffff, 0x3380_0000, 0x397f_ffff, 0x3980_0000, 0x3980_0001,
        0x3ca3_d70a, 0x3dcc_cccd, 0x3e00_0000, 0x3e80_0000, 0x3ecc_cccd, 0x3edf_ffff, 0x3ee0_0000, 0x3ee0_0001,
        0x3eff_ffff, 0x3f00_0000, 0x3f00_0001, 0x3f2f_ffff, 0x3f30_0000, 0x3f30_0001, 0x3f35_04f3, 0x3f49_0fda,
        0x3f49_0fdb, 0x3f49_0fdc, 0x3f7f_ffff, 0x3f80_0000, 0x3f80_0001, 0x3f97_ffff, 0x3f98_0000, 0x3f98_0001,
        0x3fb5_04f3, 0x3fc0_0000, 0x3fc9_0fda, 0x3fc9_0fdb, 0x3fc9_0fdc, 0x4000_0000, 0x4016_cbe3, 0x4016_cbe4,
        0x4016_cbe5, 0x401b_ffff, 0x401c_0000, 0x401c_0001, 0x4040_0000, 0x4049_0fda, 0x4049_0fdb, 0x4049_0fdc,
        0x407b_53d1, 0x407b_53d2, 0x4080_0000, 0x4096_cbe4, 0x40a0_0000, 0x40af_eddf, 0x40af_ede0, 0x40c9_0fdb,
        0x40e2_31d5, 0x40e2_31d6, 0x4100_0000, 0x411c_e80a, 0x4120_0000, 0x42c8_0000, 0x447f_ffff, 0x4480_0000,
        0x4480_0001, 0x4b00_0000, 0x4b7f_ffff, 0x4b80_0000, 0x4b80_0001, 0x4c7f_ffff, 0x4c80_0000, 0x4c80_0001,
        0x4dc9_0fdb, 0x4f00_0000, 0x5f00_0000, 0x5f80_0000, 0x6000_0000, 0x7149_f2ca, 0x7e7f_ffff, 0x7e80_0000,
        0x7f00_0000, 0x7f7f_fffe, 0x7f7f_ffff, 0x7f80_0000, 0x7f80_0001, 0x7fa0_0000, 0x7fbf_ffff, 0x7fc0_0000,
        0x7fc0_0001, 0x7fff_ffff,
    ];
    patterns.iter().flat_map(|&p| [f32::from_bits(p), f32::from_bits(p | 0x8000_0000)]).collect()
}

/// The i-th of a stream of random pairs of patterns: of four pairs one has any bits, and three have exponents that are near
/// each other, so that the quotient is not almost always far from 1.
fn random_pair(i: u64) -> (f32, f32) {
    let bits = mix(i);
    let (first, second) = (bits as u32, (bits >> 32) as u32);
    if i % 4 == 0 {
        return (f32::from_bits(first), f32::from_bits(second));
    }
    let exponent = 1 + (mix(!i) % 254) as i64;
    let other = (exponent + (mix(i ^ 0x5555_5555) % 65) as i64 - 32).clamp(0, 254);
    let with = |pattern: u32, exponent: i64| f32::from_bits((pattern & 0x807f_ffff) | ((exponent as u32) << 23));
    (with(first, exponent), with(second, other))
}

fn pairs(
    name: &str,
    random: u64,
    ours: impl Fn(f32, f32) -> f32 + Copy + Send + Sync,
    theirs: impl Fn(f32, f32) -> f32 + Copy + Send + Sync,
) -> bool {
    let values = special();
    let (values, n) = (&values, values.len() as u64);
    let visit = move |x: f32, y: f32, tally: &mut Tally| {
        let key = u64::from(x.to_bits()) << 32 | u64::from(y.to_bits());
        tally.take(mix(key), canonical(ours(x, y)), canonical(theirs(x, y)));
    };
    let (chosen_name, drawn_name) = (format!("{name} on special pairs"), format!("{name} on random pairs"));
    let choose = move |i, tally: &mut Tally| visit(values[(i / n) as usize], values[(i % n) as usize], tally);
    let chosen = over(&chosen_name, n * n, choose);
    let drawn = over(&drawn_name, random, move |i, tally| {
        let (x, y) = random_pair(i);
        visit(x, y, tally);
    });
    report(&chosen_name, chosen) & report(&drawn_name, drawn)
}

/// The narrowing on random patterns of `f64`, most with exponents where an `f32` is normal or subnormal, and on patterns at
/// a tie or one off it.
fn narrowing(random: u64) -> bool {
    let name = "narrow on random patterns";
    let tally = over(name, random, |i, tally| {
        let bits = mix(i);
        let near = (bits & 0x800f_ffff_ffff_ffff) | ((860 + mix(!i) % 300) << 52);
        let tie = (near & !0x1fff_ffff) | (0x1000_0000 + (bits >> 40) % 3 - 1);
        for pattern in [bits, near, tie] {
            let x = f64::from_bits(pattern);
            tally.take(pattern, canonical(port::narrow(x)), canonical(x as f32));
        }
    });
    report(name, tally)
}

/// Equal, or two zeros: which of two zeros min and max give is open.
fn either_zero(f: impl Fn(f32, f32) -> f32 + Copy) -> impl Fn(f32, f32) -> f32 + Copy {
    move |x, y| {
        let r = f(x, y);
        if r == 0.0 && x == 0.0 && y == 0.0 { 0.0 } else { r }
    }
}

fn main() -> ExitCode {
    command::words();
    let all = |_: f32| true;
    let reduced = |x: f32| !(x.abs() > 1024.0) || x.is_infinite();
    let mut ok = true;
    ok &= every("sqrtf", port::sqrtf, libm::sqrtf, all);
    ok &= every("sqrtf against the instruction", port::sqrtf, f32::sqrt, all);
    ok &= every("sinf up to 1024", port::sinf, libm::sinf, reduced);
    ok &= every("cosf up to 1024", port::cosf, libm::cosf, reduced);
    ok &= every("atanf", port::atanf, libm::atanf, all);
    ok &= pairs("atan2f", 1_000_000_000, port::atan2f, libm::atan2f);
    ok &= narrowing(500_000_000);
    ok &= every("abs", port::abs, f32::abs, all);
    ok &= every("signum", port::signum, f32::signum, all);
    ok &= every("bits there and back", |x| f32::from_bits(port::bits(x.to_bits())), |x| x, all);
    ok &= pairs("min", 100_000_000, either_zero(port::min), either_zero(f32::min));
    ok &= pairs("max", 100_000_000, either_zero(port::max), either_zero(f32::max));
    ok &= pairs("clamp to [-|y|, |y|]", 100_000_000, |x, y| port::clamp(x, -y.abs(), y.abs()), |x, y| {
        if y.is_nan() { x } else { x.clamp(-y.abs(), y.abs()) }
    });
    println!("{}", if ok { "no differences" } else { "DIFFERENCES" });
    command::end(Ok(ok))
}
