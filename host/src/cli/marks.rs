//! The marks of a picture: axes, what a hand did, the channels' voices, and how loud both sides are.
use super::drawing::{escaped, time, Drawing, BAND, GAP, HANDS, LEFT, SIDE};
use super::scene::{age, is_from_the_future, short_reason, Event, Run, What};
use super::script::Touch;
use lampthistle::Answer;

/// Where the lanes begin.
pub struct Lanes {
    pub hands: f64,
    pub bands: f64,
    pub sides: f64,
    pub bottom: f64,
}

/// Periods at a band's lower and upper end.
const LOWEST: f64 = 907.0;
const HIGHEST: f64 = 108.0;
const LOUDEST: f64 = 64.0;
/// Room that a number takes along time, and a touch's words.
const LABEL: f64 = 26.0;
const LABELLED: f64 = 150.0;

/// Seconds and positions along time.
pub fn axes(drawing: &Drawing, lanes: &Lanes) -> String {
    let (places, seconds) = (places(drawing, lanes), seconds(drawing, lanes));
    format!("<g aria-hidden=\"true\">\n{places}{seconds}</g>\n")
}

/// A line from one height to another.
fn line(x: f64, from: f64, to: f64, class: &str) -> String {
    format!(
        "<line class=\"{class}\" x1=\"{x:.1}\" x2=\"{x:.1}\" y1=\"{from:.1}\" y2=\"{to:.1}\"/>\n"
    )
}

fn text(x: f64, y: f64, class: &str, said: &str) -> String {
    format!("<text class=\"{class}\" x=\"{x:.1}\" y=\"{y:.1}\">{said}</text>\n")
}

/// Positions, and every sixteenth row of them, with lines through all lanes.
fn places(drawing: &Drawing, lanes: &Lanes) -> String {
    let (top, bottom) = (lanes.hands - 6.0, lanes.bottom);
    let mut svg = text(16.0, top - 16.0, "faint small", "position");
    svg += &text(16.0, top - 3.0, "faint small", "row");
    let (mut last, mut free) = (None, 0.0);
    for tick in &drawing.scene.ticks {
        let x = drawing.x(tick.from);
        if last.map(|(position, _)| position) != Some(tick.position) {
            svg += &line(x, top, bottom, "strong");
            if x >= free {
                svg += &text(x + 2.0, top - 16.0, "", &tick.position.to_string());
                free = x + LABEL;
            }
        } else if last != Some((tick.position, tick.row)) && tick.row % 16 == 0 {
            svg += &line(x, top, bottom, "grid");
            if x >= free {
                svg += &text(x + 2.0, top - 3.0, "faint small", &tick.row.to_string());
            }
        }
        last = Some((tick.position, tick.row));
    }
    svg
}

fn seconds(drawing: &Drawing, lanes: &Lanes) -> String {
    let (all, bottom) = (time(drawing.scene.frames), lanes.bottom);
    let mut svg = text(16.0, bottom + 16.0, "faint small", "seconds");
    let (step, mut at) = (seconds_step(all), 0.0);
    while at <= all {
        let x = drawing.x((at * f64::from(lampthistle::RATE)) as u64);
        svg += &line(x, bottom, bottom + 5.0, "strong");
        let said = format!("{at:.2}");
        let said = said.trim_end_matches('0').trim_end_matches('.');
        svg += &text(x + 2.0, bottom + 16.0, "", said);
        at += step;
    }
    svg
}

/// A round number of seconds, of which up to sixteen fit.
fn seconds_step(all: f64) -> f64 {
    const STEPS: [f64; 11] = [0.05, 0.1, 0.25, 0.5, 1.0, 2.0, 5.0, 10.0, 30.0, 60.0, 300.0];
    let fits = STEPS.into_iter().find(|step| all / step <= 16.0);
    fits.unwrap_or(1_800.0)
}

/// A band a channel, with a mark for each run.
pub fn bands(drawing: &Drawing, lanes: &Lanes) -> String {
    let runs = drawing.scene.runs();
    let mut svg = String::new();
    for channel in 0..drawing.scene.channels {
        let top = lanes.bands + (BAND + GAP) * channel as f64;
        let name = format!("channel {}", channel + 1);
        svg += &lane(drawing, top, BAND, &name);
        let mut free = 0.0;
        for run in runs.iter().filter(|run| run.channel == channel) {
            svg += &mark(drawing, top, run, &mut free);
        }
        svg += "</g>\n";
    }
    svg
}

/// A lane's beginning: its name and its ground. The marks follow, and its end.
fn lane(drawing: &Drawing, top: f64, height: f64, name: &str) -> String {
    let (width, middle) = (drawing.right() - LEFT, top + height / 2.0 + 4.0);
    format!(
        "<g role=\"list\" aria-label=\"{name}\">\n<rect class=\"band\" x=\"{LEFT}\" y=\"{top:.1}\" width=\"{width:.1}\" height=\"{height}\" \
         opacity=\".6\"/><text x=\"16\" y=\"{middle:.1}\">{name}</text>\n"
    )
}

fn mark(drawing: &Drawing, top: f64, run: &Run, free: &mut f64) -> String {
    let voice = run.voice;
    let (x, end) = (drawing.x_of_tick(run.from), drawing.x_of_tick(run.to));
    let strength = f64::from(voice.volume) / LOUDEST;
    let height = 3.0 + 11.0 * strength;
    let pitch = (LOWEST / f64::from(voice.period).max(1.0)).ln() / (LOWEST / HIGHEST).ln();
    let y = top + BAND - 9.0 - (BAND - 18.0) * pitch.clamp(0.0, 1.0) - height / 2.0;
    let said = escaped(&run_said(drawing, run));
    let (sample, opacity) = (voice.sample, 0.45 + 0.55 * strength);
    let mut svg = format!(
        "<g role=\"listitem\"><title>{said}</title><rect class=\"outline\" x=\"{x:.2}\" y=\"{y:.1}\" width=\"{:.2}\" height=\"{height:.1}\" \
         fill=\"url(#s{sample})\" opacity=\"{opacity:.2}\"/>",
        (end - x).max(0.5)
    );
    if x >= *free {
        svg += &format!(
            "<text class=\"number\" aria-hidden=\"true\" x=\"{:.1}\" y=\"{:.1}\">{sample}</text>",
            x + 1.0,
            y - 1.5
        );
        *free = x + LABEL;
    }
    svg + "</g>\n"
}

/// A run in words.
fn run_said(drawing: &Drawing, run: &Run) -> String {
    let (tick, voice) = (&drawing.scene.ticks[run.from], run.voice);
    let (from, to) = (time(tick.from), time(drawing.scene.frames_at(run.to)));
    format!(
        "channel {}, {}, period {}, volume {}, ticks {} to {}, {from:.3} to {to:.3} seconds, position {}, row {}",
        run.channel + 1,
        drawing.named(voice.sample),
        voice.period,
        voice.volume,
        run.from,
        run.to - 1,
        tick.position,
        tick.row
    )
}

/// The envelopes of left and right.
pub fn sides(drawing: &Drawing, lanes: &Lanes) -> String {
    let mut svg = String::new();
    for (side, name) in ["left", "right"].into_iter().enumerate() {
        let top = lanes.sides + (SIDE + GAP) * side as f64;
        svg += &lane(drawing, top, SIDE, name);
        let middle = top + SIDE / 2.0;
        let half = |peak: u16| f64::from(peak) / 32_768.0 * SIDE / 2.0;
        let (mut above, mut below) = (String::new(), String::new());
        for (k, tick) in drawing.scene.ticks.iter().enumerate() {
            let (x, end) = (drawing.x_of_tick(k), drawing.x_of_tick(k + 1));
            let high = half(tick.peaks[side]).max(0.4);
            above += &format!("L{x:.1} {:.1}L{end:.1} {:.1}", middle - high, middle - high);
            below = format!("L{end:.1} {:.1}L{x:.1} {:.1}", middle + high, middle + high) + &below;
        }
        let loudest = drawing
            .scene
            .ticks
            .iter()
            .map(|tick| tick.peaks[side])
            .max();
        let loudest = loudest.unwrap_or(0);
        svg += &format!(
            "<path role=\"listitem\" class=\"wave\" d=\"M{LEFT} {middle:.1}{above}{below}Z\"><title>{name}: how loud each tick is; {loudest} of \
             32768 at most</title></path></g>\n"
        );
    }
    svg
}

/// Page changes and touches: made above, come below, a line between.
pub fn hands(drawing: &Drawing, lanes: &Lanes) -> String {
    let mut svg = lane(drawing, lanes.hands, HANDS, "touches");
    let made = format!(
        "<text class=\"faint small\" x=\"16\" y=\"{:.1}\">made</text>",
        lanes.hands + 26.0
    );
    let came = format!(
        "<text class=\"faint small\" x=\"16\" y=\"{:.1}\">came</text>\n",
        lanes.hands + 94.0
    );
    svg += &(made + &came);
    let (mut beside, mut last) = (0.0, f64::MIN);
    for event in &drawing.scene.events {
        let x = drawing.x_of_tick(event.tick);
        beside = if x - last < LABELLED {
            beside + 11.0
        } else {
            0.0
        };
        last = x;
        svg += &match &event.what {
            What::Page(page) => page_mark(drawing, lanes, x, event, *page),
            What::Touch(touch, answer) => {
                touch_mark(drawing, lanes, event, (touch, answer), beside % 33.0)
            }
        };
    }
    svg + "</g>\n"
}

fn page_mark(drawing: &Drawing, lanes: &Lanes, x: f64, event: &Event, page: u32) -> String {
    let (top, bottom) = (lanes.hands, lanes.bottom);
    let said = event_said(drawing, event);
    format!(
        "<g role=\"listitem\"><title>{said}</title><line class=\"page\" x1=\"{x:.1}\" x2=\"{x:.1}\" y1=\"{top:.1}\" y2=\"{bottom:.1}\"/>\
         <text class=\"small\" x=\"{:.1}\" y=\"{:.1}\">page {page}</text></g>\n",
        x + 3.0,
        top + 10.0
    )
}

fn touch_mark(
    drawing: &Drawing,
    lanes: &Lanes,
    event: &Event,
    (touch, answer): (&Touch, &Answer),
    beside: f64,
) -> String {
    let age = age(event.clock, touch);
    let back = if is_from_the_future(age) {
        0
    } else {
        age as usize
    };
    let (made, came) = (
        drawing.x_of_tick(event.tick.saturating_sub(back)),
        drawing.x_of_tick(event.tick),
    );
    let (above, below) = (lanes.hands + 22.0, lanes.hands + 90.0);
    let class = if answer.is_accepted() { "yes" } else { "no" };
    let cross = if answer.is_accepted() {
        String::new()
    } else {
        format!(
            "<path class=\"no\" d=\"M{:.1} {:.1}l8 8m0 -8l-8 8\"/>",
            came - 4.0,
            below - 4.0
        )
    };
    let (said, reason) = (event_said(drawing, event), short_reason(answer));
    format!(
        "<g role=\"listitem\"><title>{said}</title><line class=\"{class}\" x1=\"{made:.1}\" y1=\"{above:.1}\" x2=\"{came:.1}\" y2=\"{below:.1}\"/>\
         <circle class=\"{class}\" cx=\"{made:.1}\" cy=\"{above:.1}\" r=\"4\"/><rect class=\"{class}\" x=\"{:.1}\" y=\"{:.1}\" width=\"10\" \
         height=\"10\"/>{cross}<text class=\"small\" x=\"{:.1}\" y=\"{:.1}\">to {}, age {age}: {reason}</text></g>\n",
        came - 5.0,
        below - 5.0,
        came - 5.0,
        below + 18.0 + beside,
        touch.position
    )
}

/// What a hand did, in words.
fn event_said(drawing: &Drawing, event: &Event) -> String {
    let at = time(drawing.scene.frames_at(event.tick));
    let (line, clock) = (event.line, event.clock);
    let said = match &event.what {
        What::Page(page) => {
            format!("line {line}: at clock {clock}, {at:.3} seconds: the page becomes {page}")
        }
        What::Touch(touch, answer) => {
            let age = age(clock, touch);
            let (page, made, position) = (touch.page, touch.made, touch.position);
            format!(
                "line {line}: touch made on page {page} at clock {made}, came at clock {clock}, {at:.3} seconds, age {age} ticks, to position \
                 {position}: {answer}"
            )
        }
    };
    escaped(&said)
}
