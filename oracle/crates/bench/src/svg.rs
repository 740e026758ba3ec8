//! What a picture is drawn with. A series differs by its line and its mark, and
//! not by its colour alone.

use std::fmt::Write;

pub type At = (f64, f64);

#[derive(Clone, Copy)]
pub enum Series {
    /// A whole line with full circles.
    Ours,
    /// A dashed line with open squares.
    Rust,
    /// A dotted line without marks.
    Slope,
}

impl Series {
    pub fn colour(self) -> &'static str {
        match self {
            Self::Ours => "#1f4e9c",
            Self::Rust => "#b5541c",
            Self::Slope => "#777",
        }
    }
}

/// A picture on white.
pub struct Picture(String);

impl Picture {
    pub fn new(width: f64, height: f64, title: &str) -> Self {
        Self(format!(
            "<svg xmlns=\"http://www.w3.org/2000/svg\" viewBox=\"0 0 {width} {height}\" \
             width=\"{width}\" height=\"{height}\" font-family=\"sans-serif\" font-size=\"14\">\n\
             <title>{title}</title>\n\
             <rect width=\"100%\" height=\"100%\" fill=\"white\"/>\n"
        ))
    }

    pub fn end(self) -> String {
        self.0 + "</svg>\n"
    }

    /// The points of a series, joined.
    pub fn draw(&mut self, series: Series, points: &[At]) {
        let line: Vec<_> = points
            .iter()
            .map(|(x, y)| format!("{x:.1},{y:.1}"))
            .collect();
        let line = line.join(" ");
        let colour = series.colour();
        let dashes = match series {
            Series::Ours => "stroke-width=\"2\"",
            Series::Rust => "stroke-width=\"2\" stroke-dasharray=\"8 4\"",
            Series::Slope => "stroke-width=\"1.5\" stroke-dasharray=\"2 4\"",
        };
        _ = writeln!(
            self.0,
            "<polyline points=\"{line}\" fill=\"none\" stroke=\"{colour}\" {dashes}/>"
        );
        points.iter().for_each(|&point| self.mark(series, point));
    }

    pub fn mark(&mut self, series: Series, (x, y): At) {
        let colour = series.colour();
        _ = match series {
            Series::Ours => writeln!(
                self.0,
                "<circle cx=\"{x:.1}\" cy=\"{y:.1}\" r=\"4\" fill=\"{colour}\"/>"
            ),
            Series::Rust => writeln!(
                self.0,
                "<rect x=\"{:.1}\" y=\"{:.1}\" width=\"8\" height=\"8\" fill=\"white\" \
                 stroke=\"{colour}\" stroke-width=\"2\"/>",
                x - 4.0,
                y - 4.0
            ),
            Series::Slope => Ok(()),
        };
    }

    /// A line of the grid.
    pub fn rule(&mut self, (x, y): At, (x2, y2): At) {
        _ = writeln!(
            self.0,
            "<line x1=\"{x:.1}\" y1=\"{y:.1}\" x2=\"{x2:.1}\" y2=\"{y2:.1}\" stroke=\"#ddd\"/>"
        );
    }

    /// Words that start, end or have their middle here.
    pub fn text(&mut self, (x, y): At, anchor: &str, style: &str, words: &str) {
        _ = writeln!(
            self.0,
            "<text x=\"{x:.1}\" y=\"{y:.1}\" text-anchor=\"{anchor}\" {style}>{words}</text>"
        );
    }
}
