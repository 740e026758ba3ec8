//! The plot of growth: a panel for each operation, both axes logarithmic.

use crate::growth::{FIRST, Line};
use crate::input::MOST;
use crate::report::seconds;
use crate::svg::{At, Picture, Series};

const SIZE: At = (960.0, 720.0);

/// A panel's room for lines, where the first one stands, and the way to the next.
const PANEL: At = (340.0, 230.0);
const LEFT: f64 = 90.0;
const TOP: f64 = 110.0;
const STEP: At = (450.0, 300.0);

const TITLE: &str = "Time of a call as the table grows";

/// Names at the ends of lines are so far apart at least.
const APART: f64 = 16.0;

/// A panel: where it stands, and the powers of ten that hold all times.
struct Panel {
    x: f64,
    y: f64,
    least: i32,
    most: i32,
}

pub fn svg(lines: &[Line]) -> String {
    let times = lines.iter().flat_map(|line| [&line.rust, &line.ours]);
    let logs = times.flatten().map(|time| time.log10());
    let (least, most) = logs.fold((f64::INFINITY, f64::NEG_INFINITY), |(least, most), log| {
        (log.min(least), log.max(most))
    });
    let mut picture = Picture::new(SIZE.0, SIZE.1, TITLE);
    legend(&mut picture);
    for (i, line) in lines.iter().enumerate() {
        let (column, row) = (i % 2, i / 2);
        let panel = Panel {
            x: LEFT + column as f64 * STEP.0,
            y: TOP + row as f64 * STEP.1,
            least: least.floor() as i32,
            most: most.ceil() as i32,
        };
        panel.grid(&mut picture, line.name);
        panel.names(&mut picture, column == 0, row == 1);
        panel.lines(&mut picture, line);
    }
    picture.end()
}

fn legend(picture: &mut Picture) {
    picture.text((LEFT, 34.0), "start", "font-size=\"19\"", TITLE);
    let samples = [
        (0.0, Series::Ours, "ours"),
        (120.0, Series::Rust, "the Rust"),
        (270.0, Series::Slope, "twice the table, twice the time"),
    ];
    for (across, series, name) in samples {
        let (x, y) = (LEFT + across, 64.0);
        picture.draw(series, &[(x, y), (x + 44.0, y)]);
        picture.text((x + 58.0, y + 5.0), "start", "", name);
    }
}

impl Panel {
    fn at(&self, n: usize, time: f64) -> At {
        let across = (n - FIRST) as f64 / (MOST - FIRST) as f64;
        let up = (time.log10() - f64::from(self.least)) / f64::from(self.most - self.least);
        (self.x + across * PANEL.0, self.y + (1.0 - up) * PANEL.1)
    }

    /// The grid with its numbers, under the operation's name.
    fn grid(&self, picture: &mut Picture, name: &str) {
        let bold = "font-weight=\"bold\"";
        picture.text((self.x, self.y - 10.0), "start", bold, name);
        for decade in self.least..=self.most {
            let time = 10f64.powi(decade);
            let (x, y) = self.at(FIRST, time);
            picture.rule((x, y), (x + PANEL.0, y));
            let label = seconds(time).replace(".00", "").replace(".0", "");
            picture.text((x - 8.0, y + 5.0), "end", "", &label);
        }
        let bottom = self.y + PANEL.1;
        for n in (FIRST..=MOST).step_by(2) {
            let (x, _) = self.at(n, 1.0);
            picture.rule((x, self.y), (x, bottom));
            picture.text((x, bottom + 20.0), "middle", "", &n.to_string());
        }
    }

    /// The names of the axes.
    fn names(&self, picture: &mut Picture, left: bool, below: bool) {
        let (middle, centre) = (self.x + PANEL.0 / 2.0, self.y + PANEL.1 / 2.0);
        if left {
            let x = self.x - 72.0;
            let turned = format!("transform=\"rotate(-90 {x} {centre})\"");
            picture.text((x, centre), "middle", &turned, "time of a call");
        }
        if below {
            let at = (middle, self.y + PANEL.1 + 44.0);
            picture.text(at, "middle", "", "n, for a table of 2ⁿ words or weights");
        }
    }

    fn lines(&self, picture: &mut Picture, line: &Line) {
        let last = line.ours[MOST - FIRST];
        let slope = [FIRST, MOST].map(|n| self.at(n, last / (1 << (MOST - n)) as f64));
        picture.draw(Series::Slope, &slope);
        let both = [(Series::Rust, &line.rust), (Series::Ours, &line.ours)];
        let [rust, ours] = both.map(|(series, times)| {
            let points = times.iter().zip(FIRST..);
            let points: Vec<_> = points.map(|(&time, n)| self.at(n, time)).collect();
            picture.draw(series, &points);
            points[points.len() - 1]
        });
        let by = (APART - (rust.1 - ours.1).abs()).max(0.0) / 2.0;
        let by = if rust.1 < ours.1 { by } else { -by };
        let ends = [
            (rust, -by, Series::Rust, "Rust"),
            (ours, by, Series::Ours, "ours"),
        ];
        for ((x, y), by, series, name) in ends {
            let fill = format!("fill=\"{}\"", series.colour());
            picture.text((x + 9.0, y + by + 5.0), "start", &fill, name);
        }
    }
}
