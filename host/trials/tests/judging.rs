//! The proved reader against the second implementation.
use second::generate::damage::aimed;
use second::generate::Random;
use trials::judging::{compare, same};

#[test]
fn generated_files_get_equal_answers() {
    let tally = compare(0, 200_000).unwrap_or_else(|what| panic!("{what}"));
    assert!(
        tally[..10].iter().all(|&n| n > 1_000),
        "each answer is met often: {tally:?}"
    );
}

#[test]
fn aimed_damage_gets_its_refusal() {
    for number in 1..=9 {
        for seed in 0..500 {
            let damaged = aimed(seed, number);
            let answer = lampthistle::judge(&damaged.bytes);
            assert_eq!(
                (answer.number, answer.place, answer.count),
                (damaged.number, damaged.place, 0),
                "seed {seed}"
            );
        }
    }
}

#[test]
fn any_bytes_get_an_answer() {
    assert_eq!(same(&[]), Ok(1));
    let mut random = Random::new(7);
    let mut file: Vec<u8> = (0..1 << 24).map(|_| random.byte()).collect();
    assert_eq!(same(&file), Ok(2));
    for tag in [b"M.K.", b"4CHN", b"6CHN", b"8CHN"] {
        file[1080..1084].copy_from_slice(tag);
        assert!(same(&file).is_ok());
    }
}
