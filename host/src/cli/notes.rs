//! What an accepted module asks for that does nothing here, or that other players do otherwise.
use super::json::Fields;
use super::layout::{self, Cell, Spot};
use super::output::counted;
use super::place;

/// The effects that do nothing, E0 to EF as 0xE0 to 0xEF. One that gets its work leaves this table.
const NOTHING: [(u8, &str); 6] = [
    (0x8, "panning"),
    (0xE0, "filter"),
    (0xE3, "glissando"),
    (0xE8, "panning"),
    (0xED, "note delay"),
    (0xEF, "invert loop"),
];

const SPEED: u8 = 0xF;
const LOOP: u8 = 0xE6;

/// How many cells of the played patterns ask for something, and the first of them in the song's order.
pub struct Note {
    /// The effect as trackers write it, its name, and what becomes of it.
    effect: String,
    name: &'static str,
    says: &'static str,
    cells: u64,
    first: Spot,
}

/// A cell with its row.
type InRow<'a> = (&'a [(Spot, Cell)], &'a (Spot, Cell));

/// The notes on an accepted module: what does nothing, in the order of the table, and then what other players do otherwise.
pub fn notes(file: &[u8]) -> Vec<Note> {
    let cells: Vec<(Spot, Cell)> = layout::played_cells(file).collect();
    let rows: Vec<&[(Spot, Cell)]> = cells.chunks(layout::channels(file)).collect();
    let in_rows = || {
        rows.iter()
            .flat_map(|row| row.iter().map(move |cell| (*row, cell)))
    };
    let note = |effect: &str, name, says, asks: &dyn Fn(&InRow) -> bool| {
        let mut asking = in_rows().filter(asks);
        let (_, (first, _)) = asking.next()?;
        Some(Note {
            effect: effect.into(),
            name,
            says,
            cells: 1 + asking.count() as u64,
            first: *first,
        })
    };
    let nothing = NOTHING.iter().filter_map(|&(effect, name)| {
        let asks = move |(_, (_, cell)): &InRow| cell.effect == effect;
        note(&format!("{effect:X}"), name, "does nothing", &asks)
    });
    let says = "sets speed 1; other players stop, or pass over it";
    let stops = note("F00", "speed 0", says, &|(_, (_, cell))| is_stop(cell));
    let says = "stands twice in a row, with one count for the song; other players count by channel";
    let loops = note("E6", "pattern loop", says, &|(row, (_, cell))| {
        cell.effect == LOOP && row.iter().filter(|(_, cell)| cell.effect == LOOP).count() > 1
    });
    nothing.chain(stops).chain(loops).collect()
}

fn is_stop(cell: &Cell) -> bool {
    cell.effect == SPEED && cell.parameter == 0
}

impl Note {
    /// The note for a person.
    pub fn line(&self) -> String {
        let (effect, name, says) = (&self.effect, self.name, self.says);
        let (cells, first) = (
            counted(self.cells, "cell"),
            place::shown(&place::spot(&self.first)),
        );
        format!("effect {effect} ({name}) {says}: {cells}, first in {first}")
    }

    /// The note as a bare line.
    pub fn plain(&self) -> String {
        let (effect, cells) = (&self.effect, self.cells);
        let Spot {
            pattern,
            row,
            channel,
        } = self.first;
        format!("note {effect} {cells} {pattern} {row} {channel}")
    }

    pub fn fields(&self) -> Fields {
        let mut fields: Fields = vec![
            ("effect", self.effect.as_str().into()),
            ("name", self.name.into()),
            ("says", self.says.into()),
            ("cells", self.cells.into()),
        ];
        fields.extend(place::spot(&self.first));
        fields
    }
}
