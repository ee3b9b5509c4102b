//! A picture of the rows that matter: for each a bar of ours and one of the Rust's, called.

use super::rows::{Group, GROUPS};
use super::table::Row;
use std::fmt::Write;

/// Where the bars begin and the longest ends, and where ratios end, from the left.
const LEFT: f64 = 210.0;
const RIGHT: f64 = 640.0;
const RATIO: f64 = 740.0;
const WIDTH: f64 = 760.0;
/// Heights: what stands above the groups, a group's head, a row, a bar of it.
const TOP: f64 = 92.0;
const HEAD: f64 = 34.0;
const ROW: f64 = 27.0;
const BAR: f64 = 10.0;
/// Nanoseconds from one line of the grid to the next.
const GRID: f64 = 50.0;

const OURS: &str = "#1b5e8c";
const THEIRS: &str = "#e0a458";
const TEXT: &str = "#222222";
const LINES: &str = "#dddddd";

/// SVG, on white.
pub fn draw(processor: &str, rows: &[Row]) -> String {
    let mut groups: Vec<_> = GROUPS
        .iter()
        .map(|group| (group, group.find(rows)))
        .collect();
    groups.retain(|(_, rows)| !rows.is_empty());
    let count: usize = groups.iter().map(|(_, rows)| rows.len()).sum();
    let mut picture = Picture {
        svg: String::new(),
        y: TOP,
        bottom: TOP + HEAD * groups.len() as f64 + ROW * count as f64,
        longest: longest(&groups),
    };
    picture.begin(processor);
    picture.scale();
    for (group, rows) in &groups {
        picture.group(group, rows);
    }
    picture.svg + "</svg>\n"
}

/// A row and its name in the picture.
type Named<'a> = (&'static str, &'a Row);

/// The longest time that is drawn, up to a line of the grid.
fn longest(groups: &[(&Group, Vec<Named>)]) -> f64 {
    let rows = groups.iter().flat_map(|(_, rows)| rows);
    let longest = rows.fold(GRID, |time, (_, row)| {
        time.max(row.ours).max(row.called.time)
    });
    (longest / GRID).ceil() * GRID
}

struct Picture {
    svg: String,
    /// Where the next thing is drawn, and where the last one ends.
    y: f64,
    bottom: f64,
    longest: f64,
}

impl Picture {
    fn begin(&mut self, processor: &str) {
        let height = self.bottom + 16.0;
        self.add(format!(
            "<svg xmlns=\"http://www.w3.org/2000/svg\" viewBox=\"0 0 {WIDTH} {height}\" width=\"{WIDTH}\" \
             height=\"{height}\" role=\"img\" font-family=\"Helvetica, Arial, sans-serif\" font-size=\"12\">"
        ));
        let title = format!("Nanoseconds per answer on {}", escaped(processor));
        self.add(format!("<title>{title}</title>"));
        self.rectangle((0.0, 0.0), (WIDTH, height), "#ffffff");
        let large = "font-size=\"15\" font-weight=\"bold\"";
        self.text((16.0, 26.0), large, &title);
        self.legend(16.0, OURS, "Brasspurse, through its C interface");
        self.legend(256.0, THEIRS, "macho-unwind-info 0.5.0");
        let how = "a shorter bar and a higher ratio are faster";
        self.text((RATIO, 52.0), END, how);
        self.text((RATIO, TOP - 6.0), END, "Rust / ours");
    }

    fn legend(&mut self, x: f64, colour: &str, name: &str) {
        self.rectangle((x, 43.0), (BAR, BAR), colour);
        self.text((x + 16.0, 52.0), "", name);
    }

    fn scale(&mut self) {
        for time in self.grid_times() {
            let unit = if time == self.longest { " ns" } else { "" };
            let x = LEFT + self.length(time);
            self.text((x, TOP - 6.0), MIDDLE, &format!("{time}{unit}"));
        }
    }

    fn group(&mut self, group: &Group, rows: &[Named]) {
        self.text((16.0, self.y + 21.0), "font-weight=\"bold\"", group.head);
        if let Some(goal) = group.goal {
            self.text((RATIO, self.y + 21.0), END, &format!("goal {goal:.1}"));
        }
        self.y += HEAD;
        self.grid(rows.len());
        for (name, row) in rows {
            self.row(name, row);
            if group.goal.is_some() {
                let ratio = format!("{:.2}", row.called.ratio);
                self.text((RATIO, self.y + 14.0), END, &ratio);
            }
            self.y += ROW;
        }
    }

    /// Lines behind so many rows.
    fn grid(&mut self, rows: usize) {
        let (top, height) = (self.y - 4.0, rows as f64 * ROW + 1.0);
        for time in self.grid_times() {
            let x = LEFT + self.length(time) - 0.5;
            self.rectangle((x, top), (1.0, height), LINES);
        }
    }

    fn grid_times(&self) -> impl Iterator<Item = f64> {
        let lines = (self.longest / GRID) as u32;
        (0..=lines).map(|line| f64::from(line) * GRID)
    }

    fn row(&mut self, name: &str, row: &Row) {
        self.text((LEFT - 8.0, self.y + 14.0), END, name);
        self.bar(self.y, row.ours, OURS);
        self.bar(self.y + BAR, row.called.time, THEIRS);
    }

    fn bar(&mut self, y: f64, time: f64, colour: &str) {
        let length = self.length(time);
        self.rectangle((LEFT, y), (length, BAR), colour);
        let beside = (LEFT + length + 4.0, y + BAR - 1.0);
        self.text(beside, "font-size=\"10\"", &format!("{time:.1}"));
    }

    fn length(&self, time: f64) -> f64 {
        time / self.longest * (RIGHT - LEFT)
    }

    fn rectangle(&mut self, (x, y): (f64, f64), (width, height): (f64, f64), colour: &str) {
        self.add(format!(
            "<rect x=\"{x:.1}\" y=\"{y}\" width=\"{width:.1}\" height=\"{height}\" fill=\"{colour}\"/>"
        ));
    }

    fn text(&mut self, (x, y): (f64, f64), how: &str, text: &str) {
        self.add(format!(
            "<text x=\"{x:.1}\" y=\"{y}\" fill=\"{TEXT}\" {how}>{text}</text>"
        ));
    }

    fn add(&mut self, element: String) {
        // Writing to a string doesn't fail.
        let _ = writeln!(self.svg, "{element}");
    }
}

const END: &str = "text-anchor=\"end\"";
const MIDDLE: &str = "text-anchor=\"middle\"";

fn escaped(text: &str) -> String {
    text.replace('&', "&amp;").replace('<', "&lt;")
}
