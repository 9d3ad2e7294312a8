//! The table as a plot: a bar of proved/second for each row that has one.

use crate::report::Group;

const TITLE: &str = "Time of the proved code / time of the second program: lower is faster";
const SUBTITLE: &str = "Medians of one run of ./speed. Under 1.0 the proved code is the faster.";

/// Where both take as long, and the ratio past which a bar has another colour.
const EVEN: f64 = 1.0;
const LIMIT: f64 = 1.2;
const WITHIN: &str = "#4477aa";
const PAST: &str = "#dd7733";

/// The least that the axis shows, and the steps in which it shows more.
const LEAST: f64 = 1.5;
const STEP: f64 = 0.5;

const WIDTH: f64 = 900.0;
const MARGIN: f64 = 14.0;
/// Where the axis starts and ends. Left of it are the labels, and right of it the
/// longest bar's value has room.
const LEFT: f64 = 330.0;
const RIGHT: f64 = 840.0;
/// Where the first group starts.
const TOP: f64 = 92.0;
const HEADING: f64 = 30.0;
const ROW: f64 = 20.0;
const BAR: f64 = 14.0;
/// The width of a value.
const VALUE: f64 = 34.0;
/// From the top of a heading or a bar down to where its text stands.
const HEADING_TEXT: f64 = 22.0;
const BAR_TEXT: f64 = 11.5;

/// White around a text that lies on lines.
const HALO: &str = r##"stroke="#fff" stroke-width="4" paint-order="stroke""##;

/// Bars and headings, each with its place from the top.
struct Layout {
    headings: Vec<(f64, String)>,
    bars: Vec<Bar>,
    bottom: f64,
    /// Where the axis ends.
    most: f64,
}

struct Bar {
    top: f64,
    label: String,
    ratio: f64,
}

/// The plot of these groups, an SVG document. What comes later lies on top: the
/// lines on the bars, and text on the lines.
pub fn of(groups: &[Group]) -> String {
    let layout = Layout::of(groups);
    let shapes = [
        head(layout.bottom + 30.0),
        layout.steps(),
        layout.bars(),
        layout.marks(),
        layout.texts(),
        vec!["</svg>\n".to_string()],
    ];
    shapes.concat().join("\n")
}

/// The document's start, its title, and what the colours mean.
fn head(height: f64) -> Vec<String> {
    let opening = format!(
        r##"<svg xmlns="http://www.w3.org/2000/svg" viewBox="0 0 {WIDTH} {height}" font-family="sans-serif" font-size="13" fill="#123">"##
    );
    let mut shapes = vec![
        opening,
        format!("<title>{TITLE}</title>"),
        format!(r##"<rect width="{WIDTH}" height="{height}" fill="#fff"/>"##),
        format!(r#"<text x="{MARGIN}" y="28" font-size="18" font-weight="bold">{TITLE}</text>"#),
        format!(r#"<text x="{MARGIN}" y="50">{SUBTITLE}</text>"#),
    ];
    for (x, colour, text) in [(660, WITHIN, "up to"), (760, PAST, "over")] {
        let after = x + 20;
        shapes.push(format!(
            r#"<rect x="{x}" y="39" width="{BAR}" height="{BAR}" fill="{colour}"/>"#
        ));
        shapes.push(format!(
            r#"<text x="{after}" y="50">{text} {LIMIT:.1}</text>"#
        ));
    }
    shapes
}

/// By the ratio as it is shown: of two bars that read 1.20 none is past it.
fn colour_of(ratio: f64) -> &'static str {
    match (ratio * 100.0).round() > LIMIT * 100.0 {
        true => PAST,
        false => WITHIN,
    }
}

impl Layout {
    /// A row without a ratio has no bar, and a group without bars no heading.
    fn of(groups: &[Group]) -> Self {
        let mut layout = Layout {
            headings: Vec::new(),
            bars: Vec::new(),
            bottom: TOP,
            most: LEAST,
        };
        for group in groups {
            let rows = group.rows.iter();
            let with_ratio = rows.filter_map(|row| Some((row, row.ratio()?)));
            let mut with_ratio = with_ratio.peekable();
            if with_ratio.peek().is_some() {
                layout.heading(group.head());
            }
            for (row, ratio) in with_ratio {
                layout.bar(format!("{}, {}", row.call, row.input), ratio);
            }
        }
        layout
    }

    fn heading(&mut self, text: String) {
        self.headings.push((self.bottom, text));
        self.bottom += HEADING;
    }

    fn bar(&mut self, label: String, ratio: f64) {
        self.most = self.most.max((ratio / STEP).ceil() * STEP);
        self.bars.push(Bar {
            top: self.bottom,
            label,
            ratio,
        });
        self.bottom += ROW;
    }

    fn x_of(&self, ratio: f64) -> f64 {
        LEFT + (RIGHT - LEFT) * ratio / self.most
    }

    /// The axis, in light lines.
    fn steps(&self) -> Vec<String> {
        let steps = (0..=(self.most / STEP) as usize).map(|step| step as f64 * STEP);
        let but_even = steps.filter(|&step| step != EVEN);
        but_even
            .map(|step| self.line(step, r##"stroke="#ddd""##))
            .collect()
    }

    fn marks(&self) -> Vec<String> {
        let look = r##"stroke="#123" stroke-width="1.5""##;
        let dashed = format!(r#"{look} stroke-dasharray="5 4""#);
        vec![self.line(EVEN, look), self.line(LIMIT, &dashed)]
    }

    /// A line from top to bottom, its number at both ends.
    fn line(&self, ratio: f64, look: &str) -> String {
        let x = self.x_of(ratio);
        let [above, end, below] = [TOP - 6.0, self.bottom + 4.0, self.bottom + 19.0];
        let number = |y: f64| {
            format!(r#"<text x="{x:.1}" y="{y:.1}" text-anchor="middle">{ratio:.1}</text>"#)
        };
        let line = format!(r#"<path d="M{x:.1},{TOP} V{end:.1}" {look}/>"#);
        [line, number(above), number(below)].join("\n")
    }

    fn bars(&self) -> Vec<String> {
        let bar = |bar: &Bar| {
            let Bar { top, ratio, .. } = bar;
            let width = self.x_of(*ratio) - LEFT;
            let colour = colour_of(*ratio);
            format!(
                r#"<rect x="{LEFT}" y="{top:.1}" width="{width:.1}" height="{BAR}" fill="{colour}"/>"#
            )
        };
        self.bars.iter().map(bar).collect()
    }

    /// Headings, labels and values, on white where there are lines.
    fn texts(&self) -> Vec<String> {
        let headings = self.headings.iter().map(|(top, text)| {
            let y = top + HEADING_TEXT;
            format!(r#"<text x="{MARGIN}" y="{y:.1}" font-weight="bold" {HALO}>{text}</text>"#)
        });
        let bars = self.bars.iter().flat_map(|bar| {
            let Bar { top, label, ratio } = bar;
            let y = top + BAR_TEXT;
            let [before, end] = [LEFT - 8.0, self.x_of(*ratio)];
            let value = end + 6.0;
            [
                format!(r#"<text x="{before}" y="{y:.1}" text-anchor="end">{label}</text>"#),
                format!(
                    r##"<rect x="{:.1}" y="{top:.1}" width="{VALUE}" height="{BAR}" fill="#fff"/>"##,
                    end + 3.0
                ),
                format!(r#"<text x="{value:.1}" y="{y:.1}">{ratio:.2}</text>"#),
            ]
        });
        headings.chain(bars).collect()
    }
}

#[cfg(test)]
mod tests {
    use super::{of, PAST, WITHIN};
    use crate::report::{Figures, Group, Row};

    fn group(rows: Vec<Row>) -> Group {
        Group {
            title: "Calls",
            second: "by_hand",
            rows,
        }
    }

    fn times(ratio: f64) -> Row {
        Row::times("call", "input", "call", [ratio * 50.0, 50.0])
    }

    #[test]
    fn a_bar_for_each_row_that_has_a_ratio() {
        let growth = Row::of("call", "growth", Figures::Growth([3.0, 1.0]));
        let plot = of(&[group(vec![times(0.5), growth, times(1.2), times(1.21)])]);
        let count = |what: &str| plot.matches(what).count();
        assert_eq!(count(">call, input<"), 3);
        assert_eq!(count("growth"), 0);
        // Each colour is in the legend too.
        assert_eq!((count(WITHIN), count(PAST)), (3, 2));
        for value in [">0.50<", ">1.20<", ">1.21<", ">Calls (second: by_hand)<"] {
            assert_eq!(count(value), 1, "{value}");
        }
    }

    #[test]
    fn the_axis_has_room_for_the_longest_bar() {
        let numbers = |ratio| {
            let plot = of(&[group(vec![times(ratio)])]);
            [">1.5<", ">2.0<", ">2.5<"].map(|number| plot.matches(number).count())
        };
        assert_eq!(numbers(0.9), [2, 0, 0]);
        assert_eq!(numbers(1.6), [2, 2, 0]);
        assert_eq!(numbers(2.1), [2, 2, 2]);
    }
}
