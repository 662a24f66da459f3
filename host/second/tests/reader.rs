//! The reader: generated valid files are accepted, aimed damage gets its refusal, edges hold.

use second::generate::damage::{aimed, any_file, at_edge, at_random};
use second::generate::draft::Draft;
use second::generate::modules::{module, Size};
use second::{channels, judge, Answer};

fn refused(number: u64, place: u64) -> Answer {
    Answer {
        number,
        place,
        count: 0,
    }
}

const ACCEPTED: Answer = Answer {
    number: 0,
    place: 0,
    count: 0,
};

#[test]
fn valid_modules_are_accepted() {
    for seed in 0..3_000 {
        assert_eq!(judge(&module(seed, Size::Small)), ACCEPTED, "seed {seed}");
    }
    for seed in 0..300 {
        assert_eq!(judge(&module(seed, Size::Medium)), ACCEPTED, "seed {seed}");
    }
    for seed in 0..100 {
        assert_eq!(judge(&module(seed, Size::Large)), ACCEPTED, "seed {seed}");
    }
}

#[test]
fn files_at_the_edge_are_accepted() {
    for seed in 0..2_000 {
        assert_eq!(judge(&at_edge(seed)), ACCEPTED, "seed {seed}");
    }
}

#[test]
fn aimed_damage_gets_its_refusal() {
    for number in 1..=9 {
        for seed in 0..2_000 {
            let damaged = aimed(seed, number);
            let expected = refused(damaged.number, damaged.place);
            assert_eq!(
                judge(&damaged.bytes),
                expected,
                "seed {seed} aimed at {number}"
            );
        }
    }
}

#[test]
fn random_damage_gets_one_of_the_numbers() {
    let mut seen = [0; 10];
    for seed in 0..4_000 {
        for file in [at_random(seed), any_file(seed)] {
            let answer = judge(&file);
            assert!(answer.number <= 9 && answer.count == 0, "seed {seed}");
            seen[answer.number as usize] += 1;
        }
    }
    assert!(seen.iter().all(|&times| times > 0), "{seen:?}");
}

#[test]
fn run_only_cases() {
    let good = Draft::empty().bytes();
    assert_eq!(good.len(), 2_108);
    assert_eq!(judge(&good[..1_083]), refused(1, 1_083));
    assert_eq!(judge(&good[..2_107]), refused(7, 2_107));
    assert_eq!(judge(&good), ACCEPTED);
    assert_eq!(judge(&[]), refused(1, 0));
    assert_eq!(judge(&good[..1_084]), refused(7, 1_084));
}

/// The tags, each with its channels.
const TAGS: [(&[u8; 4], usize); 4] = [(b"M.K.", 4), (b"4CHN", 4), (b"6CHN", 6), (b"8CHN", 8)];

#[test]
fn a_tag_names_its_channels() {
    for (tag, count) in TAGS {
        let file = Draft::tagged(tag).bytes();
        assert_eq!(judge(&file), ACCEPTED, "{tag:?}");
        assert_eq!(channels(&file), count as u32, "{tag:?}");
        assert_eq!(channels(&file[..1_084]), count as u32, "{tag:?}");
        for short in [1_083, 1_080, 4, 0] {
            assert_eq!(channels(&file[..short]), 0, "{tag:?}");
            assert_eq!(judge(&file[..short]), refused(1, short as u64), "{tag:?}");
        }
    }
}

#[test]
fn other_tags_are_refused() {
    let near: [&[u8; 4]; 20] = [
        b"M!K!", b"FLT4", b"FLT8", b"2CHN", b"1CHN", b"5CHN", b"7CHN", b"9CHN", b"0CHN", b"6CHM",
        b"6CH\0", b"8chn", b"m.k.", b"10CH", b"08CH", b"CHN8", b"CD81", b"OCTA", b"M.K\0",
        b"\x08CHN",
    ];
    for tag in near {
        for (good, _) in TAGS {
            let mut file = Draft::tagged(good).bytes();
            file[1_080..1_084].copy_from_slice(tag);
            assert_eq!(judge(&file), refused(2, 1_080), "{tag:?}");
            assert_eq!(channels(&file), 0, "{tag:?}");
            // 2 comes before 3 to 9.
            file[950] = 0;
            assert_eq!(judge(&file), refused(2, 1_080), "{tag:?}");
        }
    }
}

#[test]
fn each_byte_of_a_tag_counts() {
    for (tag, _) in TAGS {
        for place in 1_080..1_084 {
            for bit in 0..8 {
                let mut file = Draft::tagged(tag).bytes();
                file[place] ^= 1 << bit;
                let known = TAGS.iter().find(|(tag, _)| file[1_080..1_084] == tag[..]);
                let count = known.map_or(0, |&(_, count)| count as u32);
                assert_eq!(channels(&file), count, "{tag:?}");
            }
        }
    }
}

#[test]
fn patterns_have_256_bytes_a_channel() {
    for (tag, count) in TAGS {
        let mut draft = Draft::tagged(tag);
        for patterns in [1, 2, 64] {
            draft.table[100] = patterns as u8 - 1;
            draft.patterns = vec![draft.patterns[0]; patterns];
            let file = draft.bytes();
            let length = 1_084 + 256 * count * patterns;
            assert_eq!(file.len(), length, "{tag:?}");
            assert_eq!(judge(&file), ACCEPTED, "{tag:?}");
            for short in [length - 1, length - 256, 1_084] {
                assert_eq!(judge(&file[..short]), refused(7, short as u64), "{tag:?}");
            }
        }
        draft.add_sample(31, 64, &[1, 2]);
        let file = draft.bytes();
        assert_eq!(judge(&file), ACCEPTED, "{tag:?}");
        let short = file.len() - 1;
        assert_eq!(judge(&file[..short]), refused(7, short as u64), "{tag:?}");
    }
}

#[test]
fn another_tag_counts_other_patterns() {
    for (tag, count) in TAGS {
        for (other, needed) in TAGS {
            let mut file = Draft::tagged(tag).bytes();
            file[1_080..1_084].copy_from_slice(other);
            let expected = if count < needed {
                refused(7, 1_084 + 256 * count as u64)
            } else {
                ACCEPTED
            };
            assert_eq!(judge(&file), expected, "{tag:?} as {other:?}");
        }
    }
}

#[test]
fn bad_cells_have_their_place_on_each_channel() {
    for (tag, count) in TAGS {
        for (pattern, row) in [(0, 0), (0, 1), (0, 63), (1, 0), (1, 63)] {
            for channel in 0..count {
                let mut draft = Draft::tagged(tag);
                draft.table[127] = 1;
                draft.patterns.push(draft.patterns[0]);
                let place = 1_084 + 4 * (count * (64 * pattern + row) + channel);
                draft.put(pattern, row, channel, 31, 856, 0);
                assert_eq!(judge(&draft.bytes()), ACCEPTED, "{tag:?}");
                draft.put(pattern, row, channel, 31, 112, 0);
                assert_eq!(judge(&draft.bytes()), refused(9, place as u64), "{tag:?}");
                draft.put(pattern, row, channel, 32, 112, 0);
                assert_eq!(judge(&draft.bytes()), refused(8, place as u64), "{tag:?}");
            }
        }
    }
}

#[test]
fn the_first_bad_cell_of_a_row_of_eight_decides() {
    let mut draft = Draft::tagged(b"8CHN");
    draft.put(0, 1, 0, 32, 0, 0);
    draft.put(0, 0, 7, 0, 857, 0);
    assert_eq!(judge(&draft.bytes()), refused(9, 1_084 + 28));
    draft.put(0, 0, 4, 32, 0, 0);
    assert_eq!(judge(&draft.bytes()), refused(8, 1_084 + 16));
}

/// The good file with one byte set.
fn with_byte(place: usize, byte: u8) -> Answer {
    let mut file = Draft::empty().bytes();
    file[place] = byte;
    judge(&file)
}

#[test]
fn bounds_hold_on_both_sides() {
    assert_eq!(with_byte(1_083, b'!'), refused(2, 1_080));
    assert_eq!(with_byte(950, 0), refused(3, 950));
    assert_eq!(with_byte(950, 128), ACCEPTED);
    assert_eq!(with_byte(950, 129), refused(3, 950));
    assert_eq!(with_byte(951, 255), ACCEPTED);
    assert_eq!(with_byte(952 + 127, 64), refused(4, 952 + 127));
    assert_eq!(with_byte(952 + 127, 63), refused(7, 2_108));
    assert_eq!(with_byte(20 + 25, 64), ACCEPTED);
    assert_eq!(
        with_byte(20 + 30 * 30 + 25, 65),
        refused(5, 20 + 30 * 30 + 25)
    );
    assert_eq!(with_byte(20 + 29, 1), ACCEPTED);
    assert_eq!(with_byte(20 + 29, 2), refused(6, 20 + 26));
    assert_eq!(with_byte(20 + 26, 255), ACCEPTED);
    assert_eq!(with_byte(20 + 23, 1), refused(7, 2_108));
}

/// One cell in the last row set to a sample number and a period.
fn with_cell(sample: u32, period: u32) -> Answer {
    let mut draft = Draft::empty();
    draft.put(0, 63, 3, sample, period, 0);
    judge(&draft.bytes())
}

#[test]
fn cell_bounds_hold_on_both_sides() {
    let last = 2_104;
    assert_eq!(with_cell(31, 0), ACCEPTED);
    assert_eq!(with_cell(32, 0), refused(8, last));
    assert_eq!(with_cell(0x0F, 1), refused(9, last));
    assert_eq!(with_cell(0, 112), refused(9, last));
    assert_eq!(with_cell(0, 113), ACCEPTED);
    assert_eq!(with_cell(0, 856), ACCEPTED);
    assert_eq!(with_cell(0, 857), refused(9, last));
    assert_eq!(with_cell(32, 857), refused(8, last));
}

#[test]
fn the_first_bad_cell_decides_between_8_and_9() {
    let mut draft = Draft::empty();
    draft.put(0, 0, 1, 0, 112, 0);
    draft.put(0, 0, 2, 32, 0, 0);
    assert_eq!(judge(&draft.bytes()), refused(9, 1_088));
    draft.put(0, 0, 0, 32, 0, 0);
    assert_eq!(judge(&draft.bytes()), refused(8, 1_084));
}

#[test]
fn patterns_that_are_never_played_count() {
    let mut draft = Draft::empty();
    draft.table[127] = 1;
    assert_eq!(judge(&draft.bytes()), refused(7, 2_108));
    draft.patterns.push(draft.patterns[0]);
    assert_eq!(judge(&draft.bytes()), ACCEPTED);
    draft.put(1, 0, 0, 32, 0, 0);
    assert_eq!(judge(&draft.bytes()), refused(8, 2_108));
}

#[test]
fn loops_are_judged_without_wrap() {
    let mut draft = Draft::empty();
    draft.add_looped(2, 64, 1, 3, &[0; 8]);
    assert_eq!(judge(&draft.bytes()), ACCEPTED);
    draft.headers[1].repeat = 4;
    assert_eq!(judge(&draft.bytes()), refused(6, 20 + 30 + 26));
    draft.headers[1].start = 65_535;
    draft.headers[1].repeat = 2;
    assert_eq!(judge(&draft.bytes()), refused(6, 20 + 30 + 26));
}

#[test]
fn bytes_past_the_samples_are_not_read() {
    let mut draft = Draft::empty();
    draft.add_sample(31, 64, &[1, 2]);
    draft.extra = vec![255; 9];
    assert_eq!(judge(&draft.bytes()), ACCEPTED);
}
