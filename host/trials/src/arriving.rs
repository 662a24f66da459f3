//! Boards fed and closed: answer, bytes taken and every cell of board and buffer, of both implementations, on streams that arrive in pieces,
//! accepted and others, on damaged files, with another module lent between calls, and from boards that were forged.
use crate::answers::{same_answer, same_cells};
use crate::files::file;
use crate::lent::{length, Lent};
use crate::runs::{over, Tally};
use lampthistle::Board;
use second::generate::arrivals::{arriving, each_damage, each_length, pieces};
use second::generate::boards::forged;
use second::generate::modules::{module, Size};
use second::generate::streams::legal_stream;
use second::generate::Random;
use second::{Fed, BOARD_CELLS};

/// Numbers that a buffer holds at most.
const MOST_NUMBERS: usize = 20_000;
/// Calls in which a stream is fed at most; what is left then comes at once.
const MOST_CALLS: usize = 250;
/// Boards that are forged of one stream.
const FORGED: usize = 12;
/// The longest stream all of whose bytes are damaged in turn.
const MOST_DAMAGED: usize = 60;

type Cells = [u32; BOARD_CELLS];

/// Feeds streams on `count` files from a seed on, to both. A difference is named by its seed.
pub fn compare(first: u64, count: u64) -> Result<Tally, String> {
    over(first, count, |seed, tally| {
        let mut random = Random::new(seed ^ 0xA221);
        let file = file(&mut random, seed);
        let stream = any_stream(&mut random, &file);
        let mut cells = match random.below(20) {
            0 => [random.number() as u32; BOARD_CELLS],
            1 => [0; BOARD_CELLS],
            _ => second::board_fresh(),
        };
        Trial::new(&mut random, &file, tally).feed(&mut cells, &stream)
    })
}

/// Feeds parts of streams on `count` modules from a seed on, forges the boards, and feeds them the rest.
pub fn compare_forged(first: u64, count: u64) -> Result<Tally, String> {
    over(first, count, |seed, tally| {
        let mut random = Random::new(seed ^ 0xF026);
        let file = module(seed, Size::Small);
        for _ in 0..FORGED {
            let stream = any_stream(&mut random, &file);
            let mut cells = second::board_fresh();
            let part = random.below(stream.len() as u32 + 1) as usize;
            let mut room = [0; MOST_NUMBERS];
            let fed = second::board_feed(&file, &mut cells, &stream[..part], &mut room);
            let rest = &stream[fed.taken as usize..];
            cells = forged(random.number(), &file, &cells);
            Trial::new(&mut random, &file, tally).feed(&mut cells, rest)?;
        }
        Ok(())
    })
}

/// Feeds short streams on `count` modules from a seed on, with each byte damaged in turn and with each length declared: at once, and a byte a
/// call.
pub fn compare_each(first: u64, count: u64) -> Result<Tally, String> {
    over(first, count, |seed, tally| {
        let mut random = Random::new(seed ^ 0xEAC4);
        let file = module(seed, Size::Small);
        let good = short_stream(&mut random, &file);
        for stream in each_damage(&good).into_iter().chain(each_length(&good)) {
            for piece in [1, stream.len().max(1)] {
                let mut trial = Trial::new(&mut random, &file, tally);
                let mut cells = second::board_fresh();
                for bytes in stream.chunks(piece) {
                    trial.call(&mut cells, bytes, MOST_NUMBERS)?;
                }
                trial.close(&mut cells)?;
            }
        }
        Ok(())
    })
}

fn short_stream(random: &mut Random, file: &[u8]) -> Vec<u8> {
    loop {
        let stream = legal_stream(random.number(), file);
        if stream.len() <= MOST_DAMAGED {
            return stream;
        }
    }
}

/// A stream for the file, or for another module where it is refused, and seldom otherwise.
fn any_stream(random: &mut Random, file: &[u8]) -> Vec<u8> {
    let seed = random.number();
    if second::judge(file).number == 0 && random.chance(95) {
        arriving(seed, file)
    } else {
        arriving(seed, &module(seed, Size::Small))
    }
}

/// Calls to both on one file, at times with another one lent.
struct Trial<'a> {
    random: &'a mut Random,
    file: &'a [u8],
    other: Option<Vec<u8>>,
    tally: &'a mut Tally,
}

impl<'a> Trial<'a> {
    fn new(random: &'a mut Random, file: &'a [u8], tally: &'a mut Tally) -> Trial<'a> {
        let seed = random.number();
        let other = random.chance(15).then(|| module(seed, Size::Small));
        Trial {
            random,
            file,
            other,
            tally,
        }
    }

    /// Feeds the stream in pieces, with rooms of every kind, and closes the board, at times too early. Bytes that weren't taken come again
    /// with the next piece.
    fn feed(&mut self, cells: &mut Cells, stream: &[u8]) -> Result<(), String> {
        let (mut taken, mut arrived) = (0, 0);
        let pieces = pieces(self.random.number(), stream.len());
        for piece in pieces.into_iter().take(MOST_CALLS) {
            arrived += piece;
            let fed = self.any_call(cells, &stream[taken..arrived])?;
            taken += fed.taken as usize;
            if self.random.chance(1) {
                self.close(cells)?;
            }
            if fed.answer.number != 0 && self.random.chance(50) {
                break;
            }
        }
        let fed = self.call(cells, &stream[taken..], MOST_NUMBERS)?;
        taken += fed.taken as usize;
        self.any_call(cells, &stream[taken..])?;
        self.close(cells)?;
        self.any_call(cells, &[0])?;
        self.close(cells)
    }

    /// A call with a room of any kind.
    fn any_call(&mut self, cells: &mut Cells, bytes: &[u8]) -> Result<Fed, String> {
        let exact = written(self.file, cells, bytes);
        let room = length(self.random, exact, MOST_NUMBERS);
        self.call(cells, bytes, room)
    }

    fn call(&mut self, cells: &mut Cells, bytes: &[u8], room: usize) -> Result<Fed, String> {
        let before = *cells;
        let lent_other = self.random.chance(20);
        let file = self.lent(lent_other);
        let (mut board, mut ours) = (Board::from_cells(before), Lent::new(room));
        let mut other = ours.clone();
        let answer = board.feed(file, bytes, ours.part());
        let second = second::board_feed(file, cells, bytes, other.part());
        let number = same_answer(answer.answer, second.answer).and_then(|number| {
            same_cells("taken", &[answer.taken], &[second.taken])?;
            same_cells("board", board.cells(), cells)?;
            same_cells("buffer", ours.all(), other.all())?;
            Ok(number)
        });
        let what = format!("feed {bytes:?} into {room} numbers");
        self.tally[number.map_err(|how| told(&what, &before, &how))? as usize] += 1;
        Ok(second)
    }

    fn close(&mut self, cells: &mut Cells) -> Result<(), String> {
        let before = *cells;
        let lent_other = self.random.chance(20);
        let file = self.lent(lent_other);
        let mut board = Board::from_cells(before);
        let answer = board.close(file);
        let second = second::board_close(file, cells);
        let number = same_answer(answer, second)
            .and_then(|number| same_cells("board", board.cells(), cells).map(|()| number));
        self.tally[number.map_err(|how| told("close", &before, &how))? as usize] += 1;
        Ok(())
    }

    /// The file, or the other one where there is one.
    fn lent(&self, other: bool) -> &[u8] {
        match &self.other {
            Some(file) if other => file,
            _ => self.file,
        }
    }
}

/// The numbers that a call writes where it has room for many.
fn written(file: &[u8], cells: &Cells, bytes: &[u8]) -> usize {
    let rooms = [0, 1].map(|filled| {
        let mut room = vec![filled; MOST_NUMBERS];
        let _ = second::board_feed(file, &mut cells.clone(), bytes, &mut room);
        room
    });
    let [one, other] = &rooms;
    one.iter().zip(other).take_while(|(a, b)| a == b).count()
}

/// A call, the board that it was lent, and how the two differ.
fn told(call: &str, before: &Cells, how: &str) -> String {
    format!("{call}, board {before:?}: {how}")
}
