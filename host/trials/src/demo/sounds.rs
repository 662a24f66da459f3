//! The demo's samples, synthesised: a bass, a lead, a soft pad, pianos, and three drums. Bytes are signed numbers around 0.
use second::generate::Random;
use std::f64::consts::TAU;

/// The bytes of a sample, and where it loops, in bytes.
pub struct Sound {
    pub bytes: Vec<u8>,
    pub looped: Option<(usize, usize)>,
}

fn byte(level: f64) -> u8 {
    (level * 127.0).round().clamp(-127.0, 127.0) as i8 as u8
}

/// The sum of the first harmonics of a wave at a phase in turns, each weaker than the last by `fall`.
fn harmonics(phase: f64, count: u32, fall: f64) -> f64 {
    (1..=count)
        .map(|n| (TAU * phase * f64::from(n)).sin() / f64::from(n).powf(fall))
        .sum()
}

/// Bright at the pluck, then round; the last cycle loops.
pub fn bass() -> Sound {
    const CYCLE: usize = 64;
    const CYCLES: usize = 40;
    let bytes = (0..CYCLE * CYCLES)
        .map(|i| {
            let phase = i as f64 / CYCLE as f64;
            let bright = (-4.0 * i as f64 / (CYCLE * CYCLES) as f64).exp();
            byte(0.55 * harmonics(phase, 2, 1.0) + 0.25 * bright * harmonics(phase, 9, 0.7))
        })
        .collect();
    Sound {
        bytes,
        looped: Some((CYCLE * (CYCLES - 1), CYCLE)),
    }
}

/// Two waves a little apart: 64 and 65 cycles in one loop.
pub fn lead() -> Sound {
    const LENGTH: usize = 2_048;
    let bytes = (0..LENGTH)
        .map(|i| {
            let turn = i as f64 / LENGTH as f64;
            byte(0.3 * (harmonics(64.0 * turn, 7, 1.1) + harmonics(65.0 * turn, 5, 1.3)))
        })
        .collect();
    Sound {
        bytes,
        looped: Some((0, LENGTH)),
    }
}

/// Soft: three nearly pure waves that drift against each other in the loop.
pub fn pad() -> Sound {
    const LENGTH: usize = 4_096;
    let bytes = (0..LENGTH)
        .map(|i| {
            let turn = i as f64 / LENGTH as f64;
            let waves = [(128.0, 0.4), (129.0, 0.3), (257.0, 0.12)];
            byte(
                waves
                    .iter()
                    .map(|(n, level)| level * (TAU * n * turn).sin())
                    .sum(),
            )
        })
        .collect();
    Sound {
        bytes,
        looped: Some((0, LENGTH)),
    }
}

/// A struck string of so many bytes a cycle: the higher a harmonic, the weaker it is and the sooner it fades.
pub fn piano(cycle: f64) -> Sound {
    const LENGTH: usize = 8_192;
    const HARMONICS: u32 = 7;
    let bytes = (0..LENGTH)
        .map(|i| {
            let (turns, time) = (i as f64 / cycle, i as f64 / LENGTH as f64);
            let waves = (1..=HARMONICS).map(f64::from).map(|n| {
                let level = (-(2.5 + 1.5 * n) * time).exp() / n.powf(1.2);
                level * (TAU * n * turns).sin()
            });
            byte(0.5 * (1.0 - time) * waves.sum::<f64>())
        })
        .collect();
    Sound {
        bytes,
        looped: None,
    }
}

/// A low wave that falls and fades.
pub fn kick() -> Sound {
    const LENGTH: usize = 2_400;
    let mut phase = 0.0;
    let bytes = (0..LENGTH)
        .map(|i| {
            let fade = 1.0 - i as f64 / LENGTH as f64;
            phase += 0.0045 + 0.02 * fade.powi(12);
            byte(fade * (TAU * phase).sin())
        })
        .collect();
    Sound {
        bytes,
        looped: None,
    }
}

/// Noise that fades, over a short tone.
pub fn snare() -> Sound {
    noise(5, 2_000, 3, |i| 0.5 * (TAU * i as f64 / 44.0).sin())
}

/// A short hiss.
pub fn hat() -> Sound {
    noise(6, 500, 5, |_| 0.0)
}

fn noise(seed: u64, length: usize, steep: i32, tone: impl Fn(usize) -> f64) -> Sound {
    let mut random = Random::new(seed);
    let bytes = (0..length)
        .map(|i| {
            let fade = (1.0 - i as f64 / length as f64).powi(steep);
            let hiss = f64::from(random.below(2_001)) / 1_000.0 - 1.0;
            byte(fade * (0.6 * hiss + tone(i)))
        })
        .collect();
    Sound {
        bytes,
        looped: None,
    }
}
