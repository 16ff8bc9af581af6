//! The benchmark's table and plot.

pub struct Row {
    label: String,
    rounds: Vec<f64>,
    best: f64,
    middle: f64,
}

impl Row {
    /// From nanoseconds a record, one for each round.
    pub fn new(label: &str, mut rounds: Vec<f64>) -> Row {
        rounds.sort_by(f64::total_cmp);
        Row { label: label.into(), best: rounds[0], middle: rounds[rounds.len() / 2], rounds }
    }

    /// The rounds of the same row, timed once more.
    pub fn more(&mut self, other: Row) {
        assert_eq!(self.label, other.label, "the rows stand in one order");
        let rounds = [&self.rounds[..], &other.rounds].concat();
        *self = Row::new(&other.label, rounds);
    }
}

pub fn table(rows: &[Row]) -> String {
    let mut table = String::from("nanoseconds a record     best   middle\n");
    for Row { label, best, middle, .. } in rows {
        table += &format!("{label:<60} {best:>8.1} {middle:>8.1}\n");
    }
    table.replacen("nanoseconds a record     best   middle", &format!("{:<60} {:>8} {:>8}", "nanoseconds a record", "best", "middle"), 1)
}

/// Bars for the best round, a mark for the middle one.
pub fn svg(rows: &[Row]) -> String {
    const LEFT: f64 = 400.0;
    const WIDE: f64 = 420.0;
    const HIGH: f64 = 30.0;
    let most = rows.iter().map(|row| row.middle).fold(1.0, f64::max);
    let height = 50.0 + HIGH * rows.len() as f64;
    let mut svg = format!(
        "<svg xmlns=\"http://www.w3.org/2000/svg\" width=\"{}\" height=\"{height}\" font-family=\"sans-serif\" font-size=\"13\">\n\
         <rect width=\"100%\" height=\"100%\" fill=\"white\"/>\n\
         <text x=\"10\" y=\"22\" font-weight=\"bold\">Nanoseconds a record (bar: best round, mark: middle round; blue: ours)</text>\n",
        LEFT + WIDE + 90.0,
    );
    for (at, Row { label, best, middle, .. }) in rows.iter().enumerate() {
        let top = 38.0 + HIGH * at as f64;
        let long = |value: f64| value / most * WIDE;
        let ours = ["the archive", "list_", "compare_listings"].iter().any(|start| label.starts_with(start));
        svg += &format!(
            "<text x=\"{:.0}\" y=\"{:.0}\" text-anchor=\"end\">{}</text>\n\
             <rect x=\"{LEFT}\" y=\"{top:.0}\" width=\"{:.1}\" height=\"18\" fill=\"{}\"/>\n\
             <rect x=\"{:.1}\" y=\"{:.0}\" width=\"2\" height=\"22\" fill=\"#202020\"/>\n\
             <text x=\"{:.1}\" y=\"{:.0}\">{best:.0}</text>\n",
            LEFT - 8.0, top + 14.0, escape(label),
            long(*best),
            if ours { "#4878a8" } else { "#b0b0b0" },
            LEFT + long(*middle), top - 2.0,
            LEFT + long(*middle) + 8.0, top + 14.0,
        );
    }
    svg + "</svg>\n"
}

fn escape(text: &str) -> String {
    text.replace('&', "&amp;").replace('<', "&lt;")
}
