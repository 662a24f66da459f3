//! Tick lengths: no drift at one tempo, and remainders over changes of tempo.

use crate::common::{lengths, translated, Cells, UNTOUCHED};
use second::generate::draft::Draft;
use second::generate::tempos::{changing, steady};
use second::{decode, fresh, play, tick_list, trace_tick};

const TEMPO: usize = 9;
const REMAINDER: usize = 10;

/// The frames of ticks played one by one.
fn played(file: &[u8], cells: &mut Cells, ticks: usize) -> Vec<usize> {
    let tick = |_| trace_tick(file, cells).expect("legal").frames.len() / 2;
    (0..ticks).map(tick).collect()
}

#[test]
fn no_drift_at_one_tempo() {
    for (seed, tempo) in [255, 254, 33, 32, 125, 77].into_iter().enumerate() {
        let file = steady(seed as u64, tempo);
        let mut cells = fresh();
        let mut frames = 0;
        for (tick, length) in played(&file, &mut cells, 2_000).into_iter().enumerate() {
            frames += length;
            assert_eq!(frames, 120_000 * (tick + 1) / tempo as usize);
        }
        assert_eq!(cells[TEMPO], tempo);
        assert_eq!(cells[REMAINDER] as usize, 120_000 * 2_000 % tempo as usize);
    }
}

#[test]
fn the_longest_translation_at_tempo_255_has_30840000_frames() {
    let mut draft = Draft::empty();
    draft.put(0, 0, 0, 0, 0, 0xFFF);
    let file = draft.bytes();
    let mut out = vec![UNTOUCHED; 2 * 30_840_000 + 1];
    let mut cells = fresh();
    assert_eq!(play(&file, &mut cells, u32::MAX, &mut out).count, 65_535);
    assert_eq!(cells[REMAINDER], 0);
    assert_eq!(out[61_680_000], UNTOUCHED);
    assert_eq!(out[61_679_999], 0);
    let stream = decode(&translated(&file, 65_535), 4).expect("translated");
    assert_eq!(stream.lengths().iter().sum::<usize>(), 30_840_000);
}

#[test]
fn changing_tempos_begin_with_remainder_0() {
    let mut changes = 0;
    for seed in 0..300 {
        let file = changing(seed);
        let ticks = tick_list(&file, 200).expect("accepted");
        let tempos: Vec<u32> = ticks.iter().map(|tick| tick.tempo).collect();
        changes += tempos.windows(2).filter(|pair| pair[0] != pair[1]).count();
        let expected = lengths(&tempos);
        assert_eq!(played(&file, &mut fresh(), 200), expected, "seed {seed}");
    }
    assert!(changes > 5_000, "{changes}");
}
