//! A drawing in SVG that knows where its labels and shapes are, in pixels from
//! the upper left corner.

use std::fmt::{Arguments, Write};

/// White space at the right and below.
const MARGIN: f64 = 14.0;

pub type Point = (f64, f64);

/// A rectangle.
#[derive(Clone, Copy, Debug, PartialEq)]
pub struct Area {
    pub left: f64,
    pub top: f64,
    pub right: f64,
    pub bottom: f64,
}

impl Area {
    /// The least area that has all points.
    fn around(points: &[Point]) -> Area {
        let nothing = Area {
            left: f64::MAX,
            top: f64::MAX,
            right: f64::MIN,
            bottom: f64::MIN,
        };
        points.iter().fold(nothing, |area, &(x, y)| Area {
            left: area.left.min(x),
            top: area.top.min(y),
            right: area.right.max(x),
            bottom: area.bottom.max(y),
        })
    }

    pub fn meets(&self, other: &Area) -> bool {
        self.left < other.right
            && other.left < self.right
            && self.top < other.bottom
            && other.top < self.bottom
    }

    pub fn width(&self) -> f64 {
        self.right - self.left
    }

    pub fn height(&self) -> f64 {
        self.bottom - self.top
    }
}

/// The part of a label that stands at its point.
#[derive(Clone, Copy, PartialEq)]
pub enum Anchor {
    Start,
    Middle,
    End,
}

#[derive(Clone, Copy, PartialEq)]
pub struct Font {
    pub size: f64,
    pub bold: bool,
}

pub const TITLE: Font = Font {
    size: 14.0,
    bold: true,
};
pub const NAME: Font = Font {
    size: 12.0,
    bold: false,
};
pub const SMALL: Font = Font {
    size: 10.5,
    bold: false,
};

impl Font {
    /// A width that the text does not exceed in the usual sans-serif fonts.
    pub fn width(self, text: &str) -> f64 {
        let ems = text.chars().map(|character| match character {
            'f' | 'i' | 'j' | 'l' | 'r' | 't' | ' ' | '.' | ',' | ':' | ';' | '/' | '(' | ')' => {
                0.46
            }
            'm' | 'w' | 'M' | 'W' | '%' | '@' => 1.0,
            'a'..='z' | '0'..='9' => 0.65,
            _ => 0.85,
        });
        ems.sum::<f64>() * self.size * if self.bold { 1.15 } else { 1.0 }
    }

    /// How far the text reaches above its base line, and below it.
    fn reach(self) -> (f64, f64) {
        (0.8 * self.size, 0.25 * self.size)
    }
}

#[derive(Debug)]
pub struct Label {
    pub text: String,
    pub area: Area,
}

#[derive(Default)]
pub struct Drawing {
    body: String,
    pub labels: Vec<Label>,
    /// What is drawn besides labels, except backgrounds.
    pub shapes: Vec<Area>,
}

fn escaped(text: &str) -> String {
    let text = text.replace('&', "&amp;");
    text.replace('<', "&lt;").replace('>', "&gt;")
}

impl Drawing {
    /// An element that is no label, with the corners of the area that it takes.
    pub fn shape(&mut self, corners: &[Point], element: Arguments) {
        self.shapes.push(Area::around(corners));
        self.background(element);
    }

    /// An element that may lie below labels.
    pub fn background(&mut self, element: Arguments) {
        writeln!(self.body, "{element}").expect("a string takes any text");
    }

    /// A line with the attributes of its stroke.
    pub fn line(&mut self, from: Point, to: Point, stroke: &str) {
        let ((x1, y1), (x2, y2)) = (from, to);
        self.shape(
            &[from, to],
            format_args!(r#"<line x1="{x1:.1}" y1="{y1:.1}" x2="{x2:.1}" y2="{y2:.1}" {stroke}/>"#),
        );
    }

    /// A label on one line, its base line at the height of the point.
    pub fn label(&mut self, point: Point, anchor: Anchor, font: Font, text: &str) {
        self.turned_label(point, anchor, font, text, false);
    }

    /// A label that is read from below to above, in the middle of the height.
    pub fn upright_label(&mut self, point: Point, font: Font, text: &str) {
        self.turned_label(point, Anchor::Middle, font, text, true);
    }

    fn turned_label(&mut self, at: Point, anchor: Anchor, font: Font, text: &str, upright: bool) {
        let (x, y) = at;
        let (word, before) = match anchor {
            Anchor::Start => ("start", 0.0),
            Anchor::Middle => ("middle", 0.5),
            Anchor::End => ("end", 1.0),
        };
        let width = font.width(text);
        let (first, last) = (-before * width, (1.0 - before) * width);
        let (above, below) = font.reach();
        let (corners, turn) = if upright {
            let turn = format!(r#" transform="rotate(-90 {x:.1} {y:.1})""#);
            ([(x - above, y - last), (x + below, y - first)], turn)
        } else {
            (
                [(x + first, y - above), (x + last, y + below)],
                String::new(),
            )
        };
        self.labels.push(Label {
            text: text.to_string(),
            area: Area::around(&corners),
        });
        let weight = if font.bold { "bold" } else { "normal" };
        let (size, text) = (font.size, escaped(text));
        self.background(format_args!(
            "<text x=\"{x:.1}\" y=\"{y:.1}\" text-anchor=\"{word}\" font-size=\"{size}\" \
             font-weight=\"{weight}\"{turn}>{text}</text>"
        ));
    }

    /// The page, which has all labels and shapes.
    pub fn page(&self) -> Area {
        let areas = self.labels.iter().map(|label| &label.area);
        let mut corners = vec![(0.0, 0.0)];
        corners.extend(
            areas
                .chain(&self.shapes)
                .map(|area| (area.right, area.bottom)),
        );
        let drawn = Area::around(&corners);
        Area {
            right: (drawn.right + MARGIN).ceil(),
            bottom: (drawn.bottom + MARGIN).ceil(),
            ..drawn
        }
    }

    pub fn svg(&self) -> String {
        let (width, height) = (self.page().right, self.page().bottom);
        format!(
            "<svg xmlns=\"http://www.w3.org/2000/svg\" width=\"{width}\" height=\"{height}\" \
             viewBox=\"0 0 {width} {height}\" font-family=\"sans-serif\">\n\
             <rect width=\"{width}\" height=\"{height}\" fill=\"white\"/>\n{}</svg>\n",
            self.body
        )
    }
}
