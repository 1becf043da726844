//! The picture of a planned day that README shows, docs/morning.svg. The windows as given are read from the
//! sample's list, and all else from the lines of its report: a row for each box, and one for the dock.

use crate::cases::{self, root, Case};
use crate::reader;
use std::path::PathBuf;

/// Minutes from the first to the one after the last.
type Span = (u16, u16);

/// What a row shows of a box.
struct Row {
    place: usize,
    serial: String,
    kind: String,
    needs: u16,
    given: Span,
    settled: Span,
    runs: Vec<Span>,
}

/// A planned day as its list and its report say it.
struct Planned {
    minutes: u16,
    rows: Vec<Row>,
}

/// Where the picture stands.
pub fn file() -> PathBuf {
    root().join("docs/morning.svg")
}

/// The picture of samples/morning.
pub fn morning() -> String {
    let Case { list, report, .. } = cases::of(&root().join("samples"), "morning".to_string());
    drawn(&planned(&list, &report))
}

fn number(word: &str) -> u16 {
    word.parse().unwrap_or_else(|error| panic!("{word}: {error}"))
}

/// The head line's first number is the day's length. Each entry has a line, and each run.
fn planned(list: &[u8], report: &str) -> Planned {
    let given = reader::read(list).expect("a list that is read");
    let mut lines = report.lines().map(|line| line.split(' ').collect::<Vec<_>>());
    let minutes = number(lines.next().expect("a head line")[1]);
    let mut rows: Vec<Row> = given
        .entries
        .iter()
        .zip(&mut lines)
        .map(|(entry, line)| Row {
            place: line[0].parse().expect("a place"),
            serial: line[1].to_string(),
            kind: line[3].to_string(),
            needs: number(line[6]),
            given: (entry.r, entry.d),
            settled: (number(line[4]), number(line[5])),
            runs: vec![],
        })
        .collect();
    for line in lines {
        rows[usize::from(number(line[2]))].runs.push((number(line[0]), number(line[1])));
    }
    Planned { minutes, rows }
}

const WIDTH: usize = 960;
const LEFT: f32 = 270.0; // of minute 0
const RIGHT: f32 = 930.0; // of the day's end
const TOP: usize = 84; // of the first row
const ROW: usize = 46;
const BAR: usize = 26;

/// The colours in light and dark. The picture has a ground of its own, so that it can be read on every page.
const STYLE: &str = "\
text { font-family: sans-serif; font-size: 13px; fill: #1b1f24 }
.head { font-size: 17px; font-weight: bold }
.name { font-weight: bold }
.small { font-size: 12px }
.in { fill: #ffffff; font-size: 11px; text-anchor: middle }
.minute { fill: #57606a; text-anchor: middle }
.ground { fill: #ffffff; stroke: #d0d7de }
.line { stroke: #d0d7de }
.given { fill: none; stroke: #6e7781; stroke-dasharray: 4 3 }
.pause .settled { fill: #cfe3fa }
.whole .settled { fill: #fbe0c4 }
.has { stroke: #ffffff }
.pause .has { fill: #1f5fa8 }
.whole .has { fill: #a44a06 }
@media (prefers-color-scheme: dark) {
text { fill: #e6edf3 }
.in { fill: #0d1117 }
.minute { fill: #9aa4af }
.ground { fill: #0d1117; stroke: #30363d }
.line { stroke: #30363d }
.given { stroke: #9aa4af }
.pause .settled { fill: #1d3a5f }
.whole .settled { fill: #57330f }
.has { stroke: #0d1117 }
.pause .has { fill: #79b8ff }
.whole .has { fill: #f0a35c }
}
";

fn span((from, to): Span) -> String {
    format!("{from} to {to}")
}

fn text(class: &str, x: f32, y: usize, words: &str) -> String {
    format!("<text class=\"{class}\" x=\"{x:.1}\" y=\"{y}\">{words}</text>\n")
}

impl Planned {
    /// Where a minute begins.
    fn x(&self, minute: u16) -> f32 {
        LEFT + (RIGHT - LEFT) * f32::from(minute) / f32::from(self.minutes)
    }

    fn bar(&self, class: &str, minutes: Span, y: usize) -> String {
        let (from, to) = (self.x(minutes.0), self.x(minutes.1));
        let width = to - from;
        format!("<rect class=\"{class}\" x=\"{from:.1}\" y=\"{y}\" width=\"{width:.1}\" height=\"{BAR}\"/>\n")
    }

    /// Minutes that a box has, with words in the middle where they have room.
    fn run(&self, minutes: Span, y: usize, words: &str) -> String {
        let (from, to) = (self.x(minutes.0), self.x(minutes.1));
        let fits = to - from > 6.5 * words.chars().count() as f32;
        let label = if fits { text("in", (from + to) / 2.0, y + 17, words) } else { String::new() };
        self.bar("has", minutes, y) + &label
    }

    /// The minutes of the axis: so many of them that there is room for the numbers.
    fn axis(&self, bottom: usize) -> String {
        let steps = [1, 2, 5, 10, 15, 30, 60, 120];
        let step = steps.into_iter().find(|step| self.minutes / step <= 12).expect("a day has 1,440 minutes");
        let tick = |minute| {
            let x = self.x(minute);
            let line = format!(
                "<line class=\"line\" x1=\"{x:.1}\" y1=\"{}\" x2=\"{x:.1}\" y2=\"{bottom}\"/>\n",
                TOP - 8
            );
            line + &text("minute", x, TOP - 14, &minute.to_string())
        };
        (0..=self.minutes).step_by(step.into()).map(tick).collect()
    }

    /// A box: its window as given, the settled one in it, and the minutes that it has.
    fn row(&self, row: &Row, y: usize) -> String {
        let Row { place, serial, kind, needs, given, settled, runs } = row;
        let narrowed = if settled == given { String::new() } else { format!(", settled {}", span(*settled)) };
        let name = format!("{place}: serial {serial}, {kind}, {needs} minutes");
        let bars: String =
            runs.iter().map(|&run| self.run(run, y, &format!("{}–{}", run.0, run.1))).collect();
        format!(
            "<g class=\"{kind}\">\n{}{}{}{}{bars}</g>\n",
            text("name", 20.0, y + 10, &name),
            text("small", 20.0, y + 27, &format!("window {}{narrowed}", span(*given))),
            self.bar("settled", *settled, y),
            self.bar("given", *given, y),
        )
    }

    /// The dock: all minutes that are given to boxes, each with its place.
    fn dock(&self, y: usize) -> String {
        let of_row = |row: &Row| {
            let runs = row.runs.iter().map(|&run| self.run(run, y, &row.place.to_string()));
            format!("<g class=\"{}\">\n{}</g>\n", row.kind, runs.collect::<String>())
        };
        let label =
            text("name", 20.0, y + 10, "The dock") + &text("small", 20.0, y + 27, "one box at a time");
        label + &self.rows.iter().map(of_row).collect::<String>()
    }

    /// What the bars mean.
    fn legend(&self, y: usize) -> String {
        let bar = |class: &str, x| {
            format!("<rect class=\"{class}\" x=\"{x}\" y=\"{y}\" width=\"34\" height=\"16\"/>\n")
        };
        let both = |class, x| {
            format!("<g class=\"pause\">{}</g><g class=\"whole\">{}</g>\n", bar(class, x), bar(class, x + 38))
        };
        let words = |x, words| text("small", x, y + 13, words);
        [
            bar("given", 20) + &words(62.0, "window as given"),
            both("settled", 200) + &words(282.0, "settled window, pause and whole"),
            both("has", 520) + &words(602.0, "minutes that the box has in the plan"),
        ]
        .concat()
    }

    /// The picture in words.
    fn description(&self) -> String {
        let row = |row: &Row| {
            let runs: Vec<String> = row.runs.iter().map(|&run| span(run)).collect();
            format!(
                " Box {}, serial {}, {}: window {}, settled {}, it has the minutes {}.",
                row.place,
                row.serial,
                row.kind,
                span(row.given),
                span(row.settled),
                runs.join(" and ")
            )
        };
        let rows: String = self.rows.iter().map(row).collect();
        format!("A day of {} minutes with {} boxes.{rows}", self.minutes, self.rows.len())
    }
}

fn drawn(day: &Planned) -> String {
    let dock = TOP + ROW * day.rows.len() + 8;
    let legend = dock + ROW + 6;
    let height = legend + 34;
    let rows: String = (0..).zip(&day.rows).map(|(i, row)| day.row(row, TOP + ROW * i)).collect();
    let head = format!("A planned day: {} minutes, {} boxes", day.minutes, day.rows.len());
    let frame = format!("viewBox=\"0 0 {WIDTH} {height}\" role=\"img\" aria-labelledby=\"title desc\"");
    let ground = format!("width=\"{}\" height=\"{}\" rx=\"6\"", WIDTH - 1, height - 1);
    [
        format!("<svg xmlns=\"http://www.w3.org/2000/svg\" {frame}>\n"),
        format!("<title id=\"title\">{head}</title>\n<desc id=\"desc\">{}</desc>\n", day.description()),
        format!("<style>\n{STYLE}</style>\n<rect class=\"ground\" x=\"0.5\" y=\"0.5\" {ground}/>\n"),
        text("head", 20.0, 32, &head),
        text("small", 20.0, TOP - 14, "Boxes by place, minutes of the day"),
        day.axis(dock + ROW - 12),
        rows,
        day.dock(dock),
        day.legend(legend),
        "</svg>\n".to_string(),
    ]
    .concat()
}
