//! Breaks: the row that follows, held against the row's bytes.

use crate::common;
use second::generate::breaks::breaking;
use second::{fresh, trace_tick};

const NEXT_ROW: usize = 5;

/// The parameter of a row's last D.
fn last_break(file: &[u8], position: u32, row: u32) -> Option<u32> {
    let cells = common::row(file, position, row).chunks_exact(4);
    let breaks = cells.filter(|cell| cell[2] % 16 == 0xD);
    breaks.map(|cell| u32::from(cell[3])).next_back()
}

#[test]
fn a_break_goes_to_its_parameter_less_6_for_each_16() {
    let mut past_nine = 0;
    let mut rows = [0; 64];
    for seed in 0..1_000 {
        let file = breaking(seed);
        let mut cells = fresh();
        for _ in 0..60 {
            let trace = trace_tick(&file, &mut cells).expect("legal");
            let asked = last_break(&file, trace.position, trace.row);
            let (0, Some(parameter)) = (trace.tick, asked) else {
                continue;
            };
            let row = parameter - 6 * (parameter / 16);
            let expected = if row > 63 { 0 } else { row };
            assert_eq!(cells[NEXT_ROW], expected, "seed {seed}, D{parameter:02X}");
            rows[expected as usize] += 1;
            past_nine += u32::from(parameter % 16 > 9);
        }
    }
    assert!(past_nine > 5_000, "{past_nine}");
    assert!(rows.iter().all(|&times| times > 0), "{rows:?}");
}
