//! A channel's vibrato and tremolo, as trace shows them.
use super::json::{Fields, Value};
use lampthistle::{cell, State};

/// The two waves of a channel: a name, and where its cells begin among the channel's.
const WAVES: [(&str, usize); 2] = [("vibrato", cell::VIBRATO_X), ("tremolo", cell::TREMOLO_X)];
/// The forms by number.
const FORMS: [&str; 3] = ["sine", "ramp", "square"];

/// x, y, place and form.
type Wave = [u32; 4];

/// The waves of a channel, from 0, by name.
fn waves(state: &State, channel: usize) -> [(&'static str, Wave); 2] {
    WAVES.map(|(name, first)| {
        let from = cell::channel(channel) + first;
        (name, std::array::from_fn(|k| state.0[from + k]))
    })
}

/// The name of a form.
fn named(form: u32) -> &'static str {
    FORMS[form as usize]
}

/// For a person: each wave's letter, x and y as an effect has them, place and form.
pub fn marked(state: &State, channel: usize) -> String {
    let shown = waves(state, channel).map(|(name, [x, y, place, form])| {
        let (letter, form) = (&name[..1], named(form));
        format!(" {letter} {x:X}{y:X} {place:>2} {form:<6}")
    });
    shown.concat()
}

/// As bare numbers.
pub fn bare(state: &State, channel: usize) -> String {
    let shown =
        waves(state, channel).map(|(_, [x, y, place, form])| format!(" {x} {y} {place} {form}"));
    shown.concat()
}

/// As objects; none without a state.
pub fn fields(state: Option<&State>, channel: usize) -> Fields {
    let Some(state) = state else {
        return WAVES.map(|(name, _)| (name, Value::None)).into();
    };
    let objects = waves(state, channel).map(|(name, [x, y, place, form])| {
        let wave: Fields = vec![
            ("x", x.into()),
            ("y", y.into()),
            ("place", place.into()),
            ("form", named(form).into()),
        ];
        (name, wave.into())
    });
    objects.into()
}
