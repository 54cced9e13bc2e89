//! Styles by number. Colour, dash pattern and marker each go round in their own
//! time, so that their combinations do not soon come again.

/// Colours that the usual colour-blind readers tell apart, and that stand out
/// on white: those of Okabe and Ito but yellow, with five darker ones.
pub const COLORS: [&str; 12] = [
    "#0072b2", "#e69f00", "#000000", "#cc79a7", "#117733", "#d55e00", "#56b4e9", "#882255",
    "#009e73", "#332288", "#e20134", "#8400cd",
];

/// Dash patterns of lines.
pub const DASHES: [&str; 5] = ["none", "9 4", "2 3", "14 4 2 4", "5 3"];

/// Outlines of markers around (0, 0), and whether they are filled.
pub const MARKERS: [(&str, bool); 8] = [
    ("M-4,0a4,4 0 1,0 8,0a4,4 0 1,0 -8,0z", true),
    ("M-3.7,-3.7h7.4v7.4h-7.4z", false),
    ("M0,-5l4.7,8.4h-9.4z", true),
    ("M-4,0a4,4 0 1,0 8,0a4,4 0 1,0 -8,0z", false),
    ("M0,-5.4l5.4,5.4l-5.4,5.4l-5.4,-5.4z", true),
    ("M0,5l4.7,-8.4h-9.4z", false),
    ("M-3.7,-3.7h7.4v7.4h-7.4z", true),
    ("M-4,-4l8,8M-4,4l8,-8", false),
];

/// How far a marker reaches from its middle, with its stroke.
pub const MARKER_REACH: f64 = 6.4;

/// White strokes on a tile of 6 by 6 that tell bars apart; the first has none.
pub const HATCHES: [&str; 5] = [
    "",
    "M-1,1l2,-2M0,6l6,-6M5,7l2,-2",
    "M-1,5l2,2M0,0l6,6M5,-1l2,2",
    "M3,0v6",
    "M2,3h2",
];

#[derive(Clone, Copy, Debug, PartialEq, Eq)]
pub struct LineStyle {
    pub color: &'static str,
    pub dash: &'static str,
    pub marker: (&'static str, bool),
}

#[derive(Clone, Copy, Debug, PartialEq, Eq)]
pub struct BarStyle {
    pub color: &'static str,
    pub hatch: &'static str,
}

/// Dash pattern and marker together come again after 40 lines, with the colour
/// after 120.
pub fn line_style(number: usize) -> LineStyle {
    LineStyle {
        color: COLORS[number % COLORS.len()],
        dash: DASHES[number % DASHES.len()],
        marker: MARKERS[number % MARKERS.len()],
    }
}

pub fn bar_style(number: usize) -> BarStyle {
    BarStyle {
        color: COLORS[number % COLORS.len()],
        hatch: HATCHES[number % HATCHES.len()],
    }
}
