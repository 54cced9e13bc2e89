//! The panel of lines: a ratio against a length, both axes by powers, with a
//! legend right of the frame. At each length the points stand side by side in a
//! band, in the order of the legend, so that equal ones do not hide each other.

use super::bars::widest;
use super::drawing::{Anchor, Area, Drawing, Point, NAME, SMALL, TITLE};
use super::style::{line_style, LineStyle, MARKER_REACH};
use super::{ticks, AXIS, GRID};

/// Width of the frame, its least height, and the height of a legend's row.
const WIDTH: f64 = 560.0;
const HEIGHT: f64 = 380.0;
const ROW: f64 = 19.0;
/// The share of the way to the next length that a band takes, and the room
/// left and right of all bands.
const SHARE: f64 = 0.7;
const ROOM: f64 = 8.0;
/// Least distance of labels along the axes.
const APART: f64 = 18.0;
/// Length of a line in the legend.
const SAMPLE: f64 = 46.0;

pub struct Line {
    pub name: String,
    /// Lengths and ratios, all above 0.
    pub points: Vec<Point>,
}

pub struct LinePanel {
    pub title: String,
    pub x_axis: String,
    pub y_axis: String,
    pub lines: Vec<Line>,
}

/// The frame, the lengths, the width of their bands, the number of lines, and
/// the ratios at the frame's bottom and top.
struct Place {
    frame: Area,
    lengths: Vec<f64>,
    band: f64,
    lines: usize,
    ratios: (f64, f64),
}

/// How far a number is from `low` to `high`, by powers.
fn part(number: f64, (low, high): (f64, f64)) -> f64 {
    if low < high {
        (number / low).ln() / (high / low).ln()
    } else {
        0.5
    }
}

/// The least and the greatest ratio, with 1 and 2, and some room beyond both.
fn ratio_ends(ratios: impl Iterator<Item = f64>) -> (f64, f64) {
    let (low, high) = ratios.fold((1.0f64, 2.0f64), |(low, high), ratio| {
        (low.min(ratio), high.max(ratio))
    });
    let room = (high / low).powf(0.04);
    (low / room, high * room)
}

impl Place {
    fn new(panel: &LinePanel, left: f64, top: f64) -> Place {
        let points = panel.lines.iter().flat_map(|line| &line.points);
        let mut lengths: Vec<f64> = points.clone().map(|point| point.0).collect();
        lengths.sort_by(f64::total_cmp);
        lengths.dedup();
        let lines = panel.lines.len();
        let mut place = Place {
            frame: Area {
                left,
                top,
                right: left + WIDTH,
                bottom: top + HEIGHT.max(ROW * lines as f64 + 8.0),
            },
            lengths,
            band: 0.0,
            lines,
            ratios: ratio_ends(points.map(|point| point.1)),
        };
        let parts: Vec<f64> = place.lengths.iter().map(|&at| place.part(at)).collect();
        let gaps = parts.windows(2).map(|pair| pair[1] - pair[0]);
        let share = SHARE * gaps.fold(1.0, f64::min);
        place.band = (WIDTH - 2.0 * ROOM) * share / (1.0 + share);
        place
    }

    /// How far a length is on the way from the least to the greatest.
    fn part(&self, length: f64) -> f64 {
        let ends = self.lengths.first().zip(self.lengths.last());
        part(length, ends.map_or((1.0, 1.0), |(&low, &high)| (low, high)))
    }

    /// The middle of a length's band.
    fn x(&self, length: f64) -> f64 {
        let first = ROOM + self.band / 2.0;
        self.frame.left + first + (WIDTH - 2.0 * first) * self.part(length)
    }

    fn y(&self, ratio: f64) -> f64 {
        self.frame.bottom - self.frame.height() * part(ratio, self.ratios)
    }

    /// A point of a line, in the line's place in the band.
    fn point(&self, line: usize, (length, ratio): Point) -> Point {
        let side = (line as f64 + 0.5) / self.lines as f64 - 0.5;
        (self.x(length) + self.band * side, self.y(ratio))
    }
}

fn marker(drawing: &mut Drawing, style: LineStyle, (x, y): Point) {
    let (outline, filled) = style.marker;
    let color = style.color;
    let fill = if filled { color } else { "white" };
    let reach = MARKER_REACH;
    drawing.shape(
        &[(x - reach, y - reach), (x + reach, y + reach)],
        format_args!(
            "<path d=\"{outline}\" transform=\"translate({x:.1} {y:.1})\" \
             fill=\"{fill}\" stroke=\"{color}\" stroke-width=\"1.6\"/>"
        ),
    );
}

fn path(drawing: &mut Drawing, style: LineStyle, points: &[Point]) {
    let texts: Vec<String> = points
        .iter()
        .map(|(x, y)| format!("{x:.1},{y:.1}"))
        .collect();
    let (texts, color, dash) = (texts.join(" "), style.color, style.dash);
    drawing.shape(
        points,
        format_args!(
            "<polyline points=\"{texts}\" fill=\"none\" \
             stroke=\"{color}\" stroke-width=\"1.8\" stroke-dasharray=\"{dash}\"/>"
        ),
    );
}

impl LinePanel {
    /// The room that the axis needs left of the frame.
    pub fn left_width(&self) -> f64 {
        70.0
    }

    /// The room from the frame's left to the legend's right.
    pub fn right_width(&self) -> f64 {
        let names = self.lines.iter().map(|line| &line.name);
        WIDTH + 16.0 + SAMPLE + 8.0 + widest(NAME, names)
    }

    /// Draws the panel below `top`, and returns where it ends.
    pub fn draw(&self, drawing: &mut Drawing, left: f64, top: f64) -> f64 {
        drawing.label((12.0, top + 14.0), Anchor::Start, TITLE, &self.title);
        let place = Place::new(self, left, top + 34.0);
        self.x_axis(drawing, &place);
        self.y_axis(drawing, &place);
        let all_points = |number: usize| -> Vec<Point> {
            let points = self.lines[number].points.iter();
            points.map(|&point| place.point(number, point)).collect()
        };
        for number in 0..self.lines.len() {
            if self.lines[number].points.len() > 1 {
                path(drawing, line_style(number), &all_points(number));
            }
        }
        for number in 0..self.lines.len() {
            for point in all_points(number) {
                marker(drawing, line_style(number), point);
            }
            self.legend_row(drawing, &place, number);
        }
        place.frame.bottom + 62.0
    }

    /// The bands of the lengths, and their labels where they have room.
    fn x_axis(&self, drawing: &mut Drawing, place: &Place) {
        let (frame, width) = (&place.frame, place.band);
        let (bottom, height) = (frame.bottom, frame.height());
        let mut taken = f64::MIN;
        for &length in &place.lengths {
            let (middle, top) = (place.x(length), frame.top);
            let left = middle - width / 2.0;
            drawing.background(format_args!(
                r##"<rect x="{left:.1}" y="{top:.1}" width="{width:.1}" height="{height:.1}" fill="#f2f2f2"/>"##
            ));
            drawing.line((middle, bottom), (middle, bottom + 5.0), AXIS);
            let text = ticks::shown(length);
            let half = SMALL.width(&text) / 2.0;
            if middle - half > taken {
                drawing.label((middle, bottom + 18.0), Anchor::Middle, SMALL, &text);
                taken = middle + half + APART / 2.0;
            }
        }
        drawing.line((frame.left, bottom), (frame.right, bottom), AXIS);
        let middle = (frame.left + frame.right) / 2.0;
        drawing.label((middle, bottom + 36.0), Anchor::Middle, NAME, &self.x_axis);
        let order = "at each length side by side, from left to right in the order of the legend";
        drawing.label((middle, bottom + 52.0), Anchor::Middle, SMALL, order);
    }

    /// The grid and the axis left of the frame; the line at 1 is black.
    fn y_axis(&self, drawing: &mut Drawing, place: &Place) {
        let Area {
            left,
            top,
            right,
            bottom,
        } = place.frame;
        let (low, high) = place.ratios;
        let apart = APART / place.frame.height() * (high / low).log10();
        for ratio in ticks::by_powers(low, high, apart) {
            let y = place.y(ratio);
            let stroke = if ratio == 1.0 { AXIS } else { GRID };
            drawing.line((left, y), (right, y), stroke);
            let text = ticks::shown(ratio);
            drawing.label((left - 7.0, y + 4.0), Anchor::End, SMALL, &text);
        }
        drawing.line((left, top), (left, bottom), AXIS);
        let point = (left - self.left_width() + 24.0, (top + bottom) / 2.0);
        drawing.upright_label(point, NAME, &self.y_axis);
    }

    /// A line's sample and name; one point alone has no line.
    fn legend_row(&self, drawing: &mut Drawing, place: &Place, number: usize) {
        let (line, style) = (&self.lines[number], line_style(number));
        let left = place.frame.right + 16.0;
        let y = place.frame.top + 4.0 + ROW * (number as f64 + 0.5);
        if line.points.len() > 1 {
            path(drawing, style, &[(left, y), (left + SAMPLE, y)]);
        }
        marker(drawing, style, (left + SAMPLE / 2.0, y));
        let point = (left + SAMPLE + 8.0, y + 4.0);
        drawing.label(point, Anchor::Start, NAME, &line.name);
    }
}
