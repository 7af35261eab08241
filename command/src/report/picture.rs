//! The picture of a delta book: the prompts by tier, short to the left and long to the right, each net delta as a bar of what each
//! spread took and what is open.

use super::html::escaped;
use crate::numbers::{grouped, lots};

pub struct Picture {
    pub caption: String,
    pub bars: Vec<Bar>,
    /// The spreads that took something, by their place, in words.
    pub spreads: Vec<(usize, String)>,
}

/// A prompt: its tier and date, or the contract in the table of intercontract spreads; and the parts of its net delta.
pub struct Bar {
    pub group: String,
    pub name: String,
    pub net: i64,
    pub parts: Vec<Piece>,
}

/// What a spread took, by its place, or what is open; without a sign.
pub struct Piece {
    pub spread: Option<usize>,
    pub lots: i64,
}

const WIDTH: f64 = 760.0;
/// Where the names end, and how wide the net deltas are on either side of the bars.
const NAMES: f64 = 84.0;
const NUMBERS: f64 = 100.0;
const BARS: f64 = WIDTH - NAMES - 2.0 * NUMBERS;
const LINE: f64 = 20.0;
const COLOURS: [&str; 12] = [
    "#a6cee3", "#fdbf6f", "#b2df8a", "#fb9a99", "#cab2d6", "#ffee99", "#8dd3c7", "#d9d9d9", "#e5c494", "#bebada", "#ccebc5",
    "#fccde5",
];

/// How many marks the longest bar has in text.
const MARKS: i128 = 48;

impl Picture {
    /// The largest net deltas, short and long.
    fn largest(&self) -> (i64, i64) {
        let nets = || self.bars.iter().map(|bar| bar.net);
        (nets().map(|net| (-net).max(0)).max().unwrap_or(0), nets().map(|net| net.max(0)).max().unwrap_or(0))
    }

    /// A mark for each part of a bar: the spread by its place, letters after 9, and a dot for what is open.
    pub fn text(&self) -> String {
        let (short, long) = self.largest();
        let most = i128::from(short.max(long).max(1));
        let widest = |of: &dyn Fn(&Bar) -> usize| self.bars.iter().map(of).max().unwrap_or(0);
        let (group, name) = (widest(&|bar| bar.group.chars().count()), widest(&|bar| bar.name.chars().count()));
        let number = widest(&|bar| grouped(&lots(bar.net)).len());
        let mut text = format!("{}\n\n", self.caption);
        for bar in &self.bars {
            let side = match bar.net.signum() {
                -1 => "short",
                1 => "long",
                _ => "flat",
            };
            let (mut from, mut marks) = (0, String::new());
            for piece in &bar.parts {
                let mark = piece.spread.and_then(|place| char::from_digit(place as u32, 36)).unwrap_or('.');
                let to = from + i128::from(piece.lots);
                let count = to * MARKS / most - from * MARKS / most;
                marks.extend(std::iter::repeat_n(mark, count as usize));
                from = to;
            }
            let net = grouped(&lots(bar.net));
            text += format!("  {:<group$}  {:<name$}  {net:>number$}  {side:<5}  {marks}", bar.group, bar.name).trim_end();
            text += "\n";
        }
        text + "  (a mark is the place of the spread that took it; a dot is still open)\n"
    }

    pub fn svg(&self) -> String {
        let (short, long) = self.largest();
        let scale = BARS / (short as f64 + long as f64).max(1.0);
        let axis = NAMES + NUMBERS + short as f64 * scale;
        let mut drawn = String::new();
        let mut top = 18.0;
        let mut group = "";
        for bar in &self.bars {
            if bar.group != group {
                group = &bar.group;
                drawn += &format!("<rect class=\"band\" x=\"0\" y=\"{top:.1}\" width=\"{WIDTH}\" height=\"{LINE}\"/>");
                drawn += &format!("<text class=\"tier\" x=\"4\" y=\"{:.1}\">{}</text>\n", top + 14.0, escaped(group));
                top += LINE;
            }
            drawn += &bar.svg(top, axis, scale);
            top += LINE;
        }
        let sides = [(axis - 6.0, "end", "short"), (axis + 6.0, "start", "long")].map(|(x, anchor, side)| {
            format!("<text class=\"side\" x=\"{x:.1}\" y=\"12\" text-anchor=\"{anchor}\">{side}</text>")
        });
        drawn += &format!("<line class=\"axis\" x1=\"{axis:.1}\" y1=\"16\" x2=\"{axis:.1}\" y2=\"{top:.1}\"/>\n");
        let legend = self.legend(&mut top);
        let label = escaped(&self.caption);
        format!(
            "<svg role=\"img\" aria-label=\"{label}\" viewBox=\"0 0 {WIDTH} {:.0}\">\n{}\n{drawn}{legend}</svg>\n",
            top + 4.0,
            sides.concat()
        )
    }

    /// The spreads by their colours, two in a line, and what is open.
    fn legend(&self, top: &mut f64) -> String {
        let open = (None, "still open".to_string());
        let of_spreads = self.spreads.iter().map(|(place, words)| (Some(*place), words.clone()));
        let mut drawn = String::new();
        *top += 8.0;
        for (at, (place, words)) in of_spreads.chain([open]).enumerate() {
            let x = if at % 2 == 0 { 4.0 } else { WIDTH / 2.0 };
            if at % 2 == 0 {
                *top += LINE;
            }
            let y = *top - 14.0;
            drawn += &piece(place, x, y, 26.0, "");
            drawn += &format!("<text class=\"key\" x=\"{:.1}\" y=\"{:.1}\">{}</text>\n", x + 32.0, y + 12.0, escaped(&words));
        }
        drawn
    }
}

impl Bar {
    fn svg(&self, top: f64, axis: f64, scale: f64) -> String {
        let mut drawn = format!("<text class=\"name\" x=\"4\" y=\"{:.1}\">{}</text>", top + 14.0, escaped(&self.name));
        let mut from = 0;
        for of_bar in &self.parts {
            let (near, far) = (from as f64 * scale, (from + of_bar.lots) as f64 * scale);
            let x = if self.net < 0 { axis - far } else { axis + near };
            let taker = of_bar.spread.map_or("still open".to_string(), |place| format!("spread {place}"));
            let told = format!("{}: {}, {} lots", self.name, taker, grouped(&lots(of_bar.lots)));
            drawn += &piece(of_bar.spread, x, top + 3.0, far - near, &told);
            from += of_bar.lots;
        }
        let end = from as f64 * scale + 5.0;
        let (x, anchor) = if self.net < 0 { (axis - end, "end") } else { (axis + end, "start") };
        let net = grouped(&lots(self.net));
        drawn + &format!("<text class=\"net\" x=\"{x:.1}\" y=\"{:.1}\" text-anchor=\"{anchor}\">{net}</text>\n", top + 14.0)
    }
}

/// A part of a bar in the colour of its spread, with the spread's place where there is room for it.
fn piece(place: Option<usize>, x: f64, y: f64, width: f64, told: &str) -> String {
    let (colour, class) = match place {
        Some(place) => (COLOURS[(place + COLOURS.len() - 1) % COLOURS.len()], "taken"),
        None => ("#ffffff", "open"),
    };
    let words = place.map_or("open".to_string(), |place| place.to_string());
    let room = 7.0 * words.len() as f64 + 2.0;
    let title = if told.is_empty() { String::new() } else { format!("<title>{}</title>", escaped(told)) };
    let mut drawn = format!(
        "<rect class=\"{class}\" x=\"{x:.1}\" y=\"{y:.1}\" width=\"{width:.1}\" height=\"14\" fill=\"{colour}\">{title}</rect>"
    );
    if width >= room {
        let middle = x + width / 2.0;
        drawn += &format!("<text class=\"in\" x=\"{middle:.1}\" y=\"{:.1}\" text-anchor=\"middle\">{words}</text>", y + 11.0);
    }
    drawn
}
