//! The panel of bars: for each molecule one bar below another, one for each
//! series, from 0. Names and numbers stand left of the bars.

use super::drawing::{Anchor, Area, Drawing, Font, NAME, SMALL, TITLE};
use super::style::bar_style;
use super::{ticks, AXIS, GRID};

/// Heights of a bar with its gap, of the bar, of the gap between molecules, and
/// of a row of the legend.
const PITCH: f64 = 13.0;
const BAR: f64 = 10.0;
const GAP: f64 = 9.0;
const ROW: f64 = 17.0;

pub struct Series {
    /// What the bars are, for the legend.
    pub about: String,
    /// A number for each molecule.
    pub values: Vec<f64>,
}

pub struct BarPanel {
    pub title: String,
    pub axis: String,
    pub names: Vec<String>,
    pub series: Vec<Series>,
    /// Numbers to compare with, ascending, and what they are.
    pub marks: Vec<(f64, String)>,
}

/// The widest of some texts.
pub fn widest<'a>(font: Font, texts: impl Iterator<Item = &'a String>) -> f64 {
    texts.map(|text| font.width(text)).fold(0.0, f64::max)
}

fn number(value: f64) -> String {
    format!("{value:.2}")
}

/// Where the bars are, and the number at the right end.
struct Place {
    frame: Area,
    end: f64,
}

impl Place {
    fn x(&self, value: f64) -> f64 {
        self.frame.left + self.frame.width() * value / self.end
    }
}

impl BarPanel {
    /// The room that the numbers need left of the frame.
    fn numbers_width(&self) -> f64 {
        let values = self.series.iter().flat_map(|series| &series.values);
        let numbers: Vec<String> = values.map(|&value| number(value)).collect();
        widest(SMALL, numbers.iter()) + 14.0
    }

    /// The room that names and numbers need left of the frame.
    pub fn left_width(&self) -> f64 {
        widest(NAME, self.names.iter()) + self.numbers_width() + 12.0
    }

    fn ticks(&self) -> Vec<f64> {
        let values = self.series.iter().flat_map(|series| &series.values);
        let marks = self.marks.iter().map(|(value, _)| 1.5 * value);
        ticks::even(values.copied().chain(marks).fold(0.1, f64::max))
    }

    fn group_height(&self) -> f64 {
        GAP + PITCH * self.series.len() as f64
    }

    /// Draws the panel below `top`, and returns where it ends.
    pub fn draw(&self, drawing: &mut Drawing, (left, right): (f64, f64), top: f64) -> f64 {
        drawing.label((12.0, top + 14.0), Anchor::Start, TITLE, &self.title);
        self.patterns(drawing);
        let legend = top + 26.0;
        self.legend(drawing, left, legend);
        let rows = (self.series.len() + self.marks.len()) as f64;
        let first = legend + ROW * rows + 8.0;
        let ticks = self.ticks();
        let place = Place {
            frame: Area {
                left,
                right,
                top: first,
                bottom: first + self.group_height() * self.names.len() as f64,
            },
            end: *ticks.last().expect("a tick"),
        };
        self.axis(drawing, &place, &ticks);
        for (number, name) in self.names.iter().enumerate() {
            self.group(drawing, &place, number, name);
        }
        self.marks(drawing, &place);
        place.frame.bottom + 46.0
    }

    fn patterns(&self, drawing: &mut Drawing) {
        for number in 0..self.series.len() {
            let style = bar_style(number);
            let (color, hatch) = (style.color, style.hatch);
            drawing.background(format_args!(
                "<pattern id=\"bar{number}\" width=\"6\" height=\"6\" patternUnits=\"userSpaceOnUse\">\
                 <rect width=\"6\" height=\"6\" fill=\"{color}\"/>\
                 <path d=\"{hatch}\" stroke=\"white\" stroke-width=\"1.6\"/></pattern>"
            ));
        }
    }

    fn bar(drawing: &mut Drawing, series: usize, area: Area) {
        let color = bar_style(series).color;
        let Area { left, top, .. } = area;
        let (width, height) = (area.width(), area.height());
        drawing.shape(
            &[(left, top), (area.right, area.bottom)],
            format_args!(
                "<rect x=\"{left:.1}\" y=\"{top:.1}\" width=\"{width:.1}\" height=\"{height:.1}\" \
                 fill=\"url(#bar{series})\" stroke=\"{color}\"/>"
            ),
        );
    }

    fn legend(&self, drawing: &mut Drawing, left: f64, top: f64) {
        for (number, series) in self.series.iter().enumerate() {
            let top = top + ROW * number as f64;
            let area = Area {
                left,
                right: left + 34.0,
                top: top + 2.0,
                bottom: top + 2.0 + BAR,
            };
            BarPanel::bar(drawing, number, area);
            let point = (left + 42.0, top + 11.0);
            drawing.label(point, Anchor::Start, NAME, &series.about);
        }
    }

    /// The grid, the axis below the frame and its labels.
    fn axis(&self, drawing: &mut Drawing, place: &Place, ticks: &[f64]) {
        let Area {
            left,
            top,
            right,
            bottom,
        } = place.frame;
        for &tick in ticks {
            let x = place.x(tick);
            drawing.line((x, top), (x, bottom), GRID);
            let text = ticks::shown(tick);
            drawing.label((x, bottom + 17.0), Anchor::Middle, SMALL, &text);
        }
        drawing.line((left, bottom), (right, bottom), AXIS);
        let point = ((left + right) / 2.0, bottom + 35.0);
        drawing.label(point, Anchor::Middle, NAME, &self.axis);
    }

    /// The bars of one molecule; a grey band lies below every other one.
    fn group(&self, drawing: &mut Drawing, place: &Place, molecule: usize, name: &str) {
        let (frame, height) = (place.frame, self.group_height());
        let top = frame.top + height * molecule as f64;
        if molecule % 2 == 0 {
            let width = frame.right - 12.0;
            drawing.background(format_args!(
                "<rect x=\"12\" y=\"{top:.1}\" width=\"{width:.1}\" height=\"{height:.1}\" \
                 fill=\"black\" fill-opacity=\"0.05\"/>"
            ));
        }
        let point = (frame.left - self.numbers_width(), top + height / 2.0 + 4.0);
        drawing.label(point, Anchor::End, NAME, name);
        for (series, of) in self.series.iter().enumerate() {
            let value = of.values[molecule];
            let top = top + GAP / 2.0 + PITCH * series as f64;
            let point = (frame.left - 5.0, top + 10.0);
            drawing.label(point, Anchor::End, SMALL, &number(value));
            let area = Area {
                left: frame.left,
                right: place.x(value),
                top: top + (PITCH - BAR) / 2.0,
                bottom: top + (PITCH + BAR) / 2.0,
            };
            BarPanel::bar(drawing, series, area);
        }
    }

    /// Lines across the bars, that at 1 unbroken. Their labels stand above the
    /// frame, each in its own row and right of its line, that of the least
    /// number uppermost.
    fn marks(&self, drawing: &mut Drawing, place: &Place) {
        let frame = place.frame;
        for (number, (value, text)) in self.marks.iter().enumerate() {
            let rows = (self.marks.len() - number) as f64;
            let (x, y) = (place.x(*value), frame.top - ROW * rows);
            let dash = if *value == 1.0 { "none" } else { "6 3" };
            let stroke = format!(r#"stroke="black" stroke-width="1.2" stroke-dasharray="{dash}""#);
            drawing.line((x, y), (x, frame.bottom), &stroke);
            drawing.label((x + 5.0, y + 11.0), Anchor::Start, SMALL, text);
        }
    }
}
