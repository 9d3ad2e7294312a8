//! The table: groups of rows, and how they are printed.

use std::fmt::{self, Display, Formatter};

/// What stands over the table.
pub const HEAD: &str = "\
Medians of rounds in which the sides take turns, in one run. proved/second is of times in
every row: under 1.00 the proved side is the faster one. Each group names the second code
that it is held against: by_hand has no heap; device is as it is, and allocates responses.
A row of unit `times` tells how many times as long more takes, for each side by itself. The
last columns are of rates: a plain scan's, and how much of it proved and second come to.

call            input                       unit          proved  second  proved/second    scan     of scan";

/// The second code of the codec and table calls.
pub const BY_HAND: &str = "by_hand, no heap";

/// Rows of one kind, all against the same second code.
pub struct Group {
    pub title: &'static str,
    pub second: &'static str,
    pub rows: Vec<Row>,
}

pub struct Row {
    pub call: &'static str,
    pub input: String,
    pub figures: Figures,
}

/// What was measured, of the proved side first.
#[derive(Clone, Copy)]
pub enum Figures {
    /// ns for each call, load or what is named.
    Times { each: &'static str, ns: [f64; 2] },
    /// ns for passing over so many bytes, those of a plain scan last.
    Rates { bytes: usize, ns: [f64; 3] },
    /// How many times as long more takes.
    Growth([f64; 2]),
}

impl Row {
    pub fn times(call: &'static str, input: &str, each: &'static str, ns: [f64; 2]) -> Self {
        Row::of(call, input, Figures::Times { each, ns })
    }

    pub fn of(call: &'static str, input: &str, figures: Figures) -> Self {
        let input = input.to_string();
        Row {
            call,
            input,
            figures,
        }
    }

    /// The proved side's time, of the second's. Growth is each side's own, so it
    /// has none.
    pub fn ratio(&self) -> Option<f64> {
        match self.figures {
            Figures::Times { ns, .. } => Some(ns[0] / ns[1]),
            Figures::Rates { ns, .. } => Some(ns[0] / ns[1]),
            Figures::Growth(_) => None,
        }
    }

    fn unit_and_sides(&self) -> (String, [f64; 2]) {
        match self.figures {
            Figures::Times { each, ns } => {
                let (unit, size) = unit_of(ns);
                (format!("{unit} a {each}"), ns.map(|ns| ns / size))
            }
            Figures::Rates { bytes, ns } => {
                let [proved, second, _] = rates(bytes, ns);
                ("GB/s".to_string(), [proved, second])
            }
            Figures::Growth(times) => ("times".to_string(), times),
        }
    }
}

impl Group {
    pub fn head(&self) -> String {
        format!("{} (second: {})", self.title, self.second)
    }
}

impl Display for Group {
    fn fmt(&self, to: &mut Formatter) -> fmt::Result {
        writeln!(to, "{}", self.head())?;
        self.rows.iter().try_for_each(|row| writeln!(to, "{row}"))
    }
}

impl Display for Row {
    fn fmt(&self, to: &mut Formatter) -> fmt::Result {
        let (unit, sides) = self.unit_and_sides();
        let Row { call, input, .. } = self;
        let [proved, second] = sides.map(shown);
        write!(
            to,
            "{call:<15} {input:<27} {unit:<11} {proved:>8} {second:>7}"
        )?;
        if let Some(ratio) = self.ratio() {
            write!(to, " {ratio:>14.2}")?;
        }
        if let Figures::Rates { bytes, ns } = self.figures {
            let [proved, second, scan] = rates(bytes, ns);
            let of_scan = [proved, second].map(|rate| rate / scan);
            let scan = shown(scan);
            write!(to, " {scan:>7} {:>6.2} {:>4.2}", of_scan[0], of_scan[1])?;
        }
        Ok(())
    }
}

/// Bytes in a nanosecond are GB/s.
fn rates(bytes: usize, ns: [f64; 3]) -> [f64; 3] {
    ns.map(|ns| bytes as f64 / ns)
}

/// The largest unit in which both are at least 1, and its ns.
fn unit_of([one, other]: [f64; 2]) -> (&'static str, f64) {
    match one.min(other) {
        ns if ns < 1e3 => ("ns", 1.0),
        ns if ns < 1e6 => ("us", 1e3),
        _ => ("ms", 1e6),
    }
}

/// With about three digits: what comes behind them is the machine's mood.
fn shown(value: f64) -> String {
    let places = match value {
        value if value < 10.0 => 2,
        value if value < 100.0 => 1,
        _ => 0,
    };
    format!("{value:.places$}")
}

#[cfg(test)]
mod tests {
    use super::{Figures, Row};

    /// The unit, proved, second and what comes behind.
    fn columns(figures: Figures) -> Vec<String> {
        let row = Row::of("call", "input", figures).to_string();
        let columns = row.split_whitespace().skip(2);
        columns.map(str::to_string).collect()
    }

    #[test]
    fn both_sides_are_at_least_1_in_their_unit() {
        for (ns, wanted) in [
            ([90.0, 41.0], "ns a call 90.0 41.0 2.20"),
            ([1040.0, 999.0], "ns a call 1040 999 1.04"),
            ([1000.0, 2500.0], "us a call 1.00 2.50 0.40"),
            ([999_999.0, 2e6], "us a call 1000 2000 0.50"),
            ([12.34e6, 1e6], "ms a call 12.3 1.00 12.34"),
        ] {
            let figures = Figures::Times { each: "call", ns };
            assert_eq!(columns(figures).join(" "), wanted);
        }
    }

    /// Rates are higher where times are lower; the ratio stays one of times.
    #[test]
    fn rates_and_their_parts_of_the_scan() {
        let figures = Figures::Rates {
            bytes: 65_536,
            ns: [16_384.0, 8_192.0, 2_048.0],
        };
        let wanted = "GB/s 4.00 8.00 2.00 32.0 0.12 0.25";
        assert_eq!(columns(figures).join(" "), wanted);
    }

    #[test]
    fn growth_has_no_ratio() {
        let figures = Figures::Growth([1.82, 1.99]);
        assert_eq!(columns(figures).join(" "), "times 1.82 1.99");
    }
}
