//! The sound board, which is fed with a stream as its bytes come, from a line or from a file at hand: in buffers of fixed size, and in time
//! that grows as the stream does.
use super::input::Source;
use super::json::Fields;
use super::name::Name;
use super::number::Number;
use super::records::Arriving;
use super::stop::{Refusal, Stop};
use lampthistle::{refusal, Answer, Fed, TICK_NUMBERS};
use std::collections::VecDeque;
use std::io::{ErrorKind, Read};

/// Bytes that are read at once at most, and the numbers of one call. Each call judges the module: many ticks a call take less time.
const READ_BYTES: usize = 4_096;
const CALL_NUMBERS: usize = 16 * TICK_NUMBERS;

/// What the library says of a stream and its module, by whose name a refusal goes.
pub fn judge(stream: &Source, file: &Source) -> Result<Answer, Stop> {
    let answer = lampthistle::play_stream(&stream.bytes, &file.bytes, &mut []);
    match answer.number {
        0 => Ok(answer),
        refusal::SHORT_FILE..=refusal::PERIOD => Err(file.refused(answer)),
        _ => Err(stream.refused(answer)),
    }
}

/// How far a stream came.
pub fn came(ticks: u64, bytes: u64) -> Fields {
    vec![
        ("ticks_played", ticks.into()),
        ("bytes_taken", bytes.into()),
    ]
}

/// Where a stream's bytes come from.
pub struct Line<'a> {
    pub name: &'a Name,
    pub from: Box<dyn Read + 'a>,
    /// Whether it has no end of its own, as a device: then nothing is read after the stream's declared end.
    pub stays_open: bool,
}

impl<'a> Line<'a> {
    /// A stream that is at hand.
    pub fn of(name: &'a Name, stream: &'a [u8]) -> Line<'a> {
        Line {
            name,
            from: Box::new(stream),
            stays_open: false,
        }
    }
}

/// A stream that is being played, with the samples of an accepted module.
pub struct Board<'a, N> {
    line: Line<'a>,
    file: &'a Source,
    /// The numbers of a frame.
    sides: usize,
    fed: lampthistle::Board,
    records: Arriving,
    /// How far it came: the ticks that were played, and the bytes that were taken.
    ticks: u64,
    bytes: u64,
    fault: Option<Answer>,
    /// What was read, of which this and what follows is still to be taken.
    read: Vec<u8>,
    at: usize,
    /// What the last call played, the frames of its ticks that are still to be given, and where these begin.
    call: Vec<i16>,
    lengths: VecDeque<usize>,
    given: usize,
    tick: Vec<N>,
}

impl<'a, N: Number> Board<'a, N> {
    pub fn new(line: Line<'a>, file: &'a Source, sides: usize) -> Board<'a, N> {
        Board {
            line,
            file,
            sides,
            fed: lampthistle::Board::fresh(),
            records: Arriving::new(),
            ticks: 0,
            bytes: 0,
            fault: None,
            read: Vec::with_capacity(READ_BYTES),
            at: 0,
            call: vec![0; CALL_NUMBERS],
            lengths: VecDeque::new(),
            given: 0,
            tick: Vec::with_capacity(TICK_NUMBERS),
        }
    }

    /// How many ticks the stream is to have, when its header is in.
    pub fn all_ticks(&self) -> u64 {
        self.records.ticks
    }

    /// How many bytes were taken so far.
    pub fn bytes_taken(&self) -> u64 {
        self.bytes
    }

    /// The next tick's numbers, when its bytes are in; none after the last. A fault comes after the ticks before it.
    pub fn next(&mut self) -> Result<Option<&[N]>, Stop> {
        while self.lengths.is_empty() {
            if let Some(fault) = self.fault {
                return Err(self.refused(fault));
            }
            if self.at < self.read.len() {
                self.feed();
            } else if self.is_complete() || self.read_more()? == 0 {
                return self.close().map(|()| None);
            }
        }
        let from = self.given;
        self.given += 2 * self.lengths.pop_front().unwrap_or(0);
        N::of_frames(&self.call[from..self.given], self.sides, &mut self.tick);
        Ok(Some(&self.tick))
    }

    fn feed(&mut self) {
        let bytes = &self.read[self.at..];
        let Fed { answer, taken } = self.fed.feed(&self.file.bytes, bytes, &mut self.call);
        let taken = &bytes[..taken as usize];
        let lengths = taken.iter().filter_map(|&byte| self.records.take(byte));
        self.lengths.extend(lengths);
        // A record whose last byte is bad is whole, but was not played.
        self.lengths.truncate(answer.count as usize);
        self.given = 0;
        self.ticks += answer.count;
        self.bytes += taken.len() as u64;
        self.at += taken.len();
        self.fault = (!answer.is_accepted()).then_some(answer);
    }

    /// Waits for more bytes; 0 at the end.
    fn read_more(&mut self) -> Result<usize, Stop> {
        self.at = 0;
        self.read.resize(READ_BYTES, 0);
        let read = loop {
            match self.line.from.read(&mut self.read) {
                Err(e) if e.kind() == ErrorKind::Interrupted => (),
                read => break read,
            }
        };
        self.read.truncate(*read.as_ref().unwrap_or(&0));
        read.map_err(|e| Stop::Io(self.line.name.to_string(), e))
    }

    /// Whether nothing more is to be awaited: closing would not come short.
    fn is_complete(&self) -> bool {
        let mut fed = self.fed;
        self.line.stays_open && fed.close(&self.file.bytes).is_accepted()
    }

    fn close(&mut self) -> Result<(), Stop> {
        let answer = self.fed.close(&self.file.bytes);
        match answer.number {
            0 => Ok(()),
            _ => Err(self.refused(answer)),
        }
    }

    /// A refusal, with how far the stream came.
    fn refused(&self, answer: Answer) -> Stop {
        let count = self.ticks;
        Stop::Refused(Refusal {
            name: self.line.name.clone(),
            answer: Answer { count, ..answer },
            meaning: answer.meaning(),
            found: came(self.ticks, self.bytes),
        })
    }
}

#[cfg(test)]
mod tests {
    use super::*;
    use lampthistle::{Pair, MONO, STEREO};
    use std::path::Path;

    /// A stored module, and the stream of its first ticks.
    fn stored(name: &str, ticks: u32) -> (Source, Vec<u8>) {
        let root = Path::new(env!("CARGO_MANIFEST_DIR")).join("..");
        let bytes = std::fs::read(root.join("crates/play_cases/data").join(name)).unwrap();
        let mut stream = vec![0; 10 + 50 * ticks as usize];
        let length = lampthistle::translate(&bytes, ticks, &mut stream).count;
        stream.truncate(length as usize);
        let (name, identity) = (name.into(), None);
        let file = Source {
            name,
            bytes,
            identity,
        };
        (file, stream)
    }

    /// A stream of four channels by an older version, which has no channel count.
    fn older(stream: &[u8], version: u8) -> Vec<u8> {
        let follow = stream.len() as u32 - 5;
        [&follow.to_be_bytes(), &[version][..], &stream[6..]].concat()
    }

    /// Gives so many bytes at a time.
    struct Slow<'a>(&'a [u8], usize);

    impl Read for Slow<'_> {
        fn read(&mut self, to: &mut [u8]) -> std::io::Result<usize> {
            let most = to.len().min(self.1);
            self.0.read(&mut to[..most])
        }
    }

    /// All numbers of a stream that comes so many bytes at a time.
    fn played<N: Number>(file: &Source, stream: &[u8], at_once: usize, sides: u32) -> Vec<N> {
        let line = Line {
            name: &"slow".into(),
            from: Box::new(Slow(stream, at_once)),
            stays_open: false,
        };
        let mut board = Board::<N>::new(line, file, sides as usize);
        let mut joined = Vec::new();
        while let Ok(Some(numbers)) = board.next() {
            joined.extend_from_slice(numbers);
        }
        assert!(board.fault.is_none() && board.bytes == stream.len() as u64);
        joined
    }

    #[test]
    fn a_stream_in_any_pieces_is_played_as_the_whole() {
        for name in ["effects", "flow", "edges"] {
            let (file, stream) = stored(name, 400);
            for stream in [older(&stream, 1), older(&stream, 2), stream] {
                let mut whole = vec![0; 400 * TICK_NUMBERS];
                let answer = lampthistle::play_stream(&stream, &file.bytes, &mut whole);
                assert_eq!(answer.count, 400);
                whole.truncate(2 * crate::cli::records::frames(&stream) as usize);
                for at_once in [1, 2, 7, 100, usize::MAX] {
                    let numbers = played::<i16>(&file, &stream, at_once, STEREO);
                    assert!(numbers == whole, "{name}, {at_once} at once");
                }
            }
        }
    }

    #[test]
    fn floats_are_the_library_s_bit_for_bit() {
        for name in ["effects", "flow", "edges"] {
            let (file, stream) = stored(name, 400);
            for sides in [MONO, STEREO] {
                let mut whole = vec![0.0; 400 * TICK_NUMBERS];
                let last = &mut Pair::default();
                let bytes = &file.bytes;
                let answer =
                    lampthistle::play_stream_floats(&stream, bytes, sides, &mut whole, last);
                assert_eq!(answer.count, 400);
                let numbers = played::<f32>(&file, &stream, usize::MAX, sides);
                let same = numbers.iter().zip(&whole).all(|(a, b)| a.same(*b));
                assert!(same && numbers.len() > 100_000, "{name} for {sides}");
            }
        }
    }

    /// A line that must not be read again after the bytes.
    struct Open<'a>(&'a [u8]);

    impl Read for Open<'_> {
        fn read(&mut self, to: &mut [u8]) -> std::io::Result<usize> {
            assert!(!self.0.is_empty(), "it would wait forever");
            self.0.read(to)
        }
    }

    #[test]
    fn a_line_that_stays_open_is_read_to_the_declared_end() {
        let (file, stream) = stored("flow", 40);
        let (over, mut bad) = ([&stream[..], &[0]].concat(), stream.clone());
        bad[4] = 9;
        for (stream, ticks, fault) in [(&stream, 40, 0), (&over, 40, 21), (&bad, 0, 22)] {
            let line = Line {
                name: &"open".into(),
                from: Box::new(Open(stream)),
                stays_open: true,
            };
            let mut board = Board::<i16>::new(line, &file, 2);
            while let Ok(Some(_)) = board.next() {}
            let number = board.fault.map_or(0, |fault| fault.number);
            assert_eq!((board.ticks, number), (ticks, fault));
        }
    }
}
