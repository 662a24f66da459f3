//! A scene as SVG: time goes to the right, and every mark has its text.
use super::input::Source;
use super::layout::{headers, readable, TITLE};
use super::marks::{self, Lanes};
use super::output::{counted, seconds};
use super::scene::Scene;
use lampthistle::RATE;
use std::collections::BTreeSet;

/// The parts of the picture, in units that are pixels on most screens.
pub const LEFT: f64 = 96.0;
const RIGHT: f64 = 24.0;
const LEAST_WIDTH: f64 = 1_100.0;
const HEAD: f64 = 84.0;
const LEGEND_ROW: f64 = 22.0;
const LEGEND_ITEM: f64 = 210.0;
const AXIS: f64 = 40.0;
pub const HANDS: f64 = 140.0;
pub const BAND: f64 = 74.0;
pub const SIDE: f64 = 52.0;
pub const GAP: f64 = 10.0;

/// The look: on light and dark screens and on paper. A sample has a hue; its pattern is the paper's colour.
const STYLE: &str = "
svg{--paper:#fff;--ink:#1b1b1f;--faint:#6a6a72;--line:#d5d5dc;--band:#f4f4f7;--light:41%;--yes:#0b6b3a;--no:#a3172d;
background:var(--paper);font-family:system-ui,sans-serif;font-size:12px}
@media(prefers-color-scheme:dark){svg{--paper:#15161a;--ink:#ececf1;--faint:#a5a6b0;--line:#3a3b44;--band:#1f2026;--light:66%;--yes:#58cf91;--no:#ff8a9a}}
@media print{svg{--paper:#fff;--ink:#000;--faint:#333;--line:#bbb;--band:#fff;--light:38%;--yes:#000;--no:#000}}
text{fill:var(--ink)}.faint{fill:var(--faint)}.title{font-size:20px;font-weight:600}.small{font-size:10px}
.paper{fill:var(--paper)}.band{fill:var(--band)}.grid{stroke:var(--line)}.strong{stroke:var(--faint)}
.hue{fill:hsl(var(--h) 62% var(--light))}.weave{stroke:var(--paper);stroke-width:1.6;fill:none}.outline{stroke:var(--ink);stroke-width:.6}
.number{font-size:10px;font-weight:600;stroke:var(--paper);stroke-width:2.5px;paint-order:stroke}
.wave{fill:var(--faint)}.yes{stroke:var(--yes);fill:var(--yes)}.no{stroke:var(--no);fill:var(--paper)}.page{stroke:var(--ink);stroke-dasharray:5 3}
";

/// How the picture is read.
const READING: &str = "A mark's pattern, colour and number say the sample, its height the pitch, its thickness the volume; below, how loud left and right are.";

/// A picture that is being drawn.
pub struct Drawing<'a> {
    source: &'a Source,
    pub scene: &'a Scene,
    /// Samples that sound.
    samples: BTreeSet<u32>,
    width: f64,
}

impl<'a> Drawing<'a> {
    pub fn new(source: &'a Source, scene: &'a Scene) -> Drawing<'a> {
        let runs = scene.runs();
        let samples = runs.iter().map(|run| run.voice.sample).collect();
        let width = (1.2 * scene.ticks.len() as f64).max(LEAST_WIDTH);
        Drawing {
            source,
            scene,
            samples,
            width,
        }
    }

    /// Where a frame is along time.
    pub fn x(&self, frame: u64) -> f64 {
        let all = self.scene.frames.max(1) as f64;
        LEFT + self.width * frame as f64 / all
    }

    pub fn x_of_tick(&self, tick: usize) -> f64 {
        self.x(self.scene.frames_at(tick))
    }

    pub fn right(&self) -> f64 {
        LEFT + self.width
    }

    /// A sample's number with its name.
    pub fn named(&self, sample: u32) -> String {
        let header = headers(&self.source.bytes).nth(sample.wrapping_sub(1) as usize);
        let name = header.map_or(String::new(), |header| readable(header.name));
        format!("sample {sample} {name}").trim_end().into()
    }

    /// The whole picture.
    pub fn svg(&self) -> String {
        let per_row = (((LEFT + self.width) / LEGEND_ITEM) as usize).max(1);
        let legend = LEGEND_ROW * self.samples.len().div_ceil(per_row) as f64;
        let has_hands = !self.scene.events.is_empty();
        let hands = HEAD + legend + AXIS;
        let bands = hands + if has_hands { HANDS + GAP } else { 0.0 };
        let sides = bands + (BAND + GAP) * self.scene.channels as f64;
        let bottom = sides + 2.0 * (SIDE + GAP);
        let (width, height) = (self.right() + RIGHT, bottom + AXIS);
        let lanes = Lanes {
            hands,
            bands,
            sides,
            bottom,
        };
        let (title, about) = (escaped(&self.title()), escaped(&self.about()));
        let mut svg = format!(
            "<svg xmlns=\"http://www.w3.org/2000/svg\" width=\"{width:.0}\" height=\"{height:.0}\" viewBox=\"0 0 {width:.0} {height:.0}\" \
             role=\"group\" aria-labelledby=\"title about\">\n<title id=\"title\">{title}</title>\n<desc id=\"about\">{about} {READING}</desc>\n\
             <style>{STYLE}</style>\n<defs>{}</defs>\n<rect class=\"paper\" width=\"100%\" height=\"100%\"/>\n\
             <text class=\"title\" x=\"16\" y=\"30\">{title}</text>\n<text class=\"faint\" x=\"16\" y=\"50\">{about}</text>\n<text class=\"faint\" x=\"16\" y=\"68\">{READING}</text>\n",
            self.patterns()
        );
        svg += &self.legend(per_row);
        svg += &marks::axes(self, &lanes);
        if has_hands {
            svg += &marks::hands(self, &lanes);
        }
        svg += &marks::bands(self, &lanes);
        svg += &marks::sides(self, &lanes);
        svg + "</svg>\n"
    }

    fn title(&self) -> String {
        let title = readable(&self.source.bytes[TITLE]);
        let file = &self.source.name;
        if title.trim().is_empty() {
            file.to_string()
        } else {
            format!("{title} ({file})")
        }
    }

    /// How long it is.
    fn about(&self) -> String {
        let (ticks, scene) = (counted(self.scene.ticks.len() as u64, "tick"), self.scene);
        let (seconds, channels) = (seconds(scene.frames), scene.channels);
        format!("{ticks}, {seconds}, {channels} channels.")
    }

    /// A pattern for each sample, told apart without colour, too.
    fn patterns(&self) -> String {
        const WEAVES: [&str; 6] = [
            "",
            "M-2 2L2 -2M0 8L8 0M6 10L10 6",
            "M-2 6L2 10M0 0L8 8M6 -2L10 2",
            "M0 4H8",
            "M4 0V8",
            "M0 4H8M4 0V8",
        ];
        let pattern = |&sample: &u32| {
            let weave = WEAVES[sample as usize % WEAVES.len()];
            let hue = 47 * sample % 360;
            format!(
                "<pattern id=\"s{sample}\" width=\"8\" height=\"8\" patternUnits=\"userSpaceOnUse\"><rect class=\"hue\" style=\"--h:{hue}\" \
                 width=\"8\" height=\"8\"/><path class=\"weave\" d=\"{weave}\"/></pattern>"
            )
        };
        self.samples.iter().map(pattern).collect()
    }

    fn legend(&self, per_row: usize) -> String {
        let mut svg = String::from("<g role=\"list\" aria-label=\"samples\">\n");
        for (k, &sample) in self.samples.iter().enumerate() {
            let x = 16.0 + LEGEND_ITEM * (k % per_row) as f64;
            let y = HEAD + LEGEND_ROW * (k / per_row) as f64;
            let name = escaped(&self.named(sample));
            svg += &format!(
                "<g role=\"listitem\"><rect class=\"outline\" x=\"{x:.1}\" y=\"{y:.1}\" width=\"30\" height=\"13\" fill=\"url(#s{sample})\"/>\
                 <text x=\"{:.1}\" y=\"{:.1}\">{name}</text></g>\n",
                x + 36.0,
                y + 11.0
            );
        }
        svg + "</g>\n"
    }
}

/// How many seconds a frame is from the beginning.
pub fn time(frame: u64) -> f64 {
    frame as f64 / f64::from(RATE)
}

/// Text in a page or a picture.
pub fn escaped(text: &str) -> String {
    let mut safe = String::new();
    for c in text.chars() {
        match c {
            '&' => safe += "&amp;",
            '<' => safe += "&lt;",
            '>' => safe += "&gt;",
            '"' => safe += "&quot;",
            c if c.is_control() => safe.push('?'),
            c => safe.push(c),
        }
    }
    safe
}
