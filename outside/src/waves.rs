//! Random settings and waveforms that make events, changes and values on limits.

use crate::rng::{one_of, Rng};
use crate::rules::{self, Settings, TOP};

/// Settings in all ranges; small M often.
pub fn settings(rng: &mut Rng) -> Settings {
    let m = match rng.range(0, 9) {
        0..=5 => rng.range(8, 11),
        6..=7 => rng.range(8, 40),
        8 => one_of(&[8, 9, 16, 255, 256], rng),
        _ => rng.range(8, 256),
    };
    let f = one_of(&[50, 60], rng);
    let u = match rng.range(0, 9) {
        0..=2 => one_of(&[1600, 16_000, 160_000], rng),
        3 => one_of(&[16, 17, 524_287, 524_288], rng),
        4..=5 => 100 * rng.range(1, 3000),
        // High enough for clipped samples in most values.
        6..=7 => one_of(&[400_000, 100 * rng.range(2000, 5200)], rng),
        8 => 16 << rng.range(0, 14),
        _ => rng.range(16, 524_288),
    };
    let t = match rng.range(0, 4) {
        0 => one_of(&[50, 51, 599, 600], rng),
        1..=2 => 50 * rng.range(1, 12),
        _ => rng.range(50, 600),
    };
    let h = match rng.range(0, 3) {
        0 => 0,
        1 => t / 2,
        2 => t - 1,
        _ => rng.range(0, t - 1),
    };
    let (i, d, w, g) = levels(rng);
    let s = Settings { m, f, u, t, h, i, d, w, g, n: if f == 50 { 100 } else { 120 } };
    assert_eq!(rules::settings(&rules::settings_bytes(&s)), Ok(s));
    s
}

/// I, D, W, G that start accepts.
fn levels(rng: &mut Rng) -> (i64, i64, i64, i64) {
    if rng.chance(60) {
        let g = one_of(&[0, 100, 200, 200, 500], rng);
        return (one_of(&[1, 500, 1000, 5000], rng), 9000, one_of(&[11_000, 11_200], rng), g);
    }
    // D − G ≥ I ≥ 1 and W > D + 2 × G, so W is at least 3 × G + 2.
    let w = if rng.chance(20) { 20_000 } else { rng.range(2, 20_000) };
    let g = if rng.chance(50) { rng.range(0, (w - 2) / 3) } else { rng.range(0, (w - 2) / 30) };
    let d = match rng.range(0, 2) {
        0 => w - 2 * g - 1,
        _ => rng.range(1 + g, w - 2 * g - 1),
    };
    let i = match rng.range(0, 3) {
        0 => d - g,
        1 => 1,
        _ => rng.range(1, d - g),
    };
    (i, d, w, g)
}

/// Settings bytes with something wrong, most often only one thing.
pub fn bad_settings(rng: &mut Rng) -> Vec<u8> {
    let s = settings(rng);
    let mut x = [s.m, s.f, s.u, s.t, s.h, s.i, s.d, s.w, s.g];
    let top = u32::MAX as i64;
    for _ in 0..one_of(&[1, 1, 1, 2, 3], rng) {
        match rng.range(0, 13) {
            0 => x[0] = one_of(&[0, 7, 257, top, 1 << 31], rng),
            1 => x[1] = one_of(&[0, 49, 51, 59, 61, 100, top, 50 + (1 << 16)], rng),
            2 => x[2] = one_of(&[0, 15, 524_289, top], rng),
            3 => x[3] = one_of(&[0, 49, 601, top], rng),
            4 => x[4] = one_of(&[x[3], x[3] + 1, top], rng) & top,
            5 => x[5] = one_of(&[0, 20_001, top], rng),
            6 => x[6] = one_of(&[0, 20_001, top], rng),
            7 => x[7] = one_of(&[0, 20_001, top], rng),
            8 => x[8] = one_of(&[20_001, 1 << 31, top], rng),
            // I + G above D by one; D + 2 × G equal to W.
            9 => x[5] = (x[6] - x[8] + 1) & top,
            10 => x[7] = (x[6] + 2 * x[8]) & top,
            // Sums that would wrap in 4 bytes.
            11 => {
                x[5] = 1;
                x[8] = top;
            }
            12 => x[rng.range(0, 8) as usize] = rng.range(0, top),
            _ => {}
        }
    }
    let mut bytes: Vec<u8> = x.iter().flat_map(|&x| (x as u32).to_le_bytes()).collect();
    if rng.chance(15) {
        bytes.resize(one_of(&[0, 1, 35, 37, 40, 72], rng), 0);
    }
    bytes
}

/// About the greatest step that is calm under this limit: a step by x puts the newest value
/// (N − 1) × x above or below the sum.
fn calm_step(s: &Settings, t: i64) -> i64 {
    (t * s.n * s.u / 10_000) / (s.n - 1)
}

/// A level to aim at, in sixteenths of a count, given the level before.
fn level(rng: &mut Rng, s: &Settings, before: i64) -> i64 {
    let part = |hundredths: i64| hundredths * s.u / 10_000;
    let near = rng.range(-1, 1);
    let step = |t: i64| calm_step(s, t);
    let sign = one_of(&[-1, 1], rng);
    let x = match rng.range(0, 19) {
        0..=3 => s.u,
        4..=6 => before + sign * (step(s.t) + near),
        7 => before + sign * (step(s.t - s.h) + near),
        8 => before + sign * rng.range(0, 2 * step(s.t)),
        9 => part(s.d) + near,
        10 => part(s.d + s.g) + near,
        11 => part(s.w) + near,
        12 => part(s.w - s.g) + near,
        13 => part(s.i) + near,
        14 => part(s.i + s.g) + near,
        15 => part(rng.range(0, s.d)),
        16 => part(rng.range(s.w, s.w + 2000)),
        17 => one_of(&[0, TOP], rng),
        18 => part(rng.range(0, s.i)),
        _ => before,
    };
    x.clamp(0, TOP)
}

/// One half-cycle whose neighbour pairs give about, most often exactly, the value r.
pub fn half(rng: &mut Rng, m: i64, r: i64, style: i64, out: &mut Vec<i16>) {
    let count = (r / 16).min(32_768);
    match style {
        // The least energy that gives r, put together from greedy squares.
        0 => {
            let mut left = (r * r * m + 255) / 256;
            for j in 0..m {
                let share = if j < m - 4 { left / (m - j) } else { left };
                let x = share.isqrt().min(32_767);
                left -= x * x;
                out.push(if j % 2 == 0 { x } else { -x } as i16);
            }
        }
        // The same count all along, negative (which reaches −32768) or not.
        1 => out.extend((0..m).map(|_| -count as i16)),
        2 => out.extend((0..m).map(|_| count.min(32_767) as i16)),
        // Half a sine wave.
        3 => {
            let peak = (r as f64 / 16.0 * std::f64::consts::SQRT_2).min(32_767.0);
            for j in 0..m {
                let turn = std::f64::consts::PI * (j as f64 + 0.5) / m as f64;
                out.push((peak * turn.sin()).round() as i16);
            }
        }
        // Noise around the count.
        4 => {
            let spread = count / 50 + 1;
            for _ in 0..m {
                let x = count + rng.range(-spread, spread);
                out.push(x.clamp(-32_768, 32_767) as i16);
            }
        }
        // Anything.
        _ => out.extend((0..m).map(|_| rng.next() as i16)),
    }
}

/// Levels, each for so many half-cycles: a long rest in a dip or swell or beside one, perhaps a few
/// values across its limits, and a step that begins a change. So one stands before the change, or has
/// just ended.
fn recovery(rng: &mut Rng, s: &Settings) -> Vec<(i64, i64)> {
    let part = |hundredths: i64| hundredths * s.u / 10_000;
    // A level at which it stands, one at which it ends, and the way out.
    let dip = (part(s.d) - 1, part(s.d + s.g) + 1, 1);
    let swell = (part(s.w) + 1, part(s.w - s.g), -1);
    let (stands, ends, out) = one_of(&[dip, swell], rng);
    let deep = stands - out * rng.range(0, part(500));
    let mut r = one_of(&[deep, stands, (stands + ends) / 2, ends], rng);
    let mut steps = vec![(r, s.n + rng.range(1, 10))];
    for across in [stands, ends] {
        if rng.chance(60) {
            r = across;
            steps.push((r, one_of(&[1, 2, 2, 3], rng)));
        }
    }
    let wide = calm_step(s, s.t) * rng.range(1, 4) + 1;
    let r = one_of(&[r + out * wide, r + out * wide, r - out * wide, s.u], rng);
    steps.push((r, s.n + rng.range(2, 8)));
    steps.iter().map(|&(r, halves)| (r.clamp(0, TOP), halves)).collect()
}

/// The waveform of such levels alone.
pub fn recovery_wave(rng: &mut Rng, s: &Settings) -> Vec<i16> {
    let mut out = Vec::new();
    for (r, halves) in recovery(rng, s) {
        (0..halves).for_each(|_| half(rng, s.m, r, 0, &mut out));
    }
    out
}

/// A waveform of about this many half-cycles.
pub fn wave(rng: &mut Rng, s: &Settings, halves: i64) -> Vec<i16> {
    let mut out = Vec::new();
    let mut done = 0;
    let mut style = one_of(&[0, 0, 0, 1, 2, 3], rng);
    let mut r = s.u;
    let mut last = 0;
    while done < halves {
        let steps = if rng.chance(if done == 0 { 15 } else { 5 }) {
            recovery(rng, s)
        } else {
            if last > 0 || rng.chance(30) {
                r = if rng.chance(60) && last < s.n { s.u } else { level(rng, s, r) };
            }
            let length = match rng.range(0, 9) {
                0..=3 => rng.range(1, 4),
                4..=5 => rng.range(1, 30),
                6 => s.n + rng.range(-2, 3),
                _ => s.n + rng.range(0, 20),
            };
            let first = done == 0 && rng.chance(80);
            vec![(r, if first { s.n + rng.range(-1, 10) } else { length })]
        };
        if rng.chance(10) {
            style = rng.range(0, 4);
        }
        let wild = rng.chance(2);
        for (level, length) in steps {
            for _ in 0..length.min(halves - done) {
                half(rng, s.m, level, if wild { 5 } else { style }, &mut out);
            }
            done += length;
            (r, last) = (level, length);
        }
    }
    out
}

/// Samples as bytes, low byte first.
pub fn bytes(samples: &[i16]) -> Vec<u8> {
    samples.iter().flat_map(|x| x.to_le_bytes()).collect()
}
