//! The picture of the benchmark, in two panels: bars of ratios for each molecule,
//! and lines of ratios against lengths. It takes any number of molecules, of
//! listers and of lengths.

pub mod bars;
pub mod drawing;
pub mod lines;
pub mod style;
pub mod ticks;

use bars::BarPanel;
use drawing::{Anchor, Drawing, SMALL};
use lines::LinePanel;

const AXIS: &str = r#"stroke="black""#;
const GRID: &str = r##"stroke="#d8d8d8""##;

pub struct Picture {
    pub bars: BarPanel,
    pub lines: LinePanel,
    /// Lines of text below both panels.
    pub notes: Vec<String>,
}

impl Picture {
    pub fn draw(&self) -> Drawing {
        let mut drawing = Drawing::default();
        let left = 12.0 + self.bars.left_width().max(self.lines.left_width());
        let right = left + self.lines.right_width();
        let mut top = 10.0;
        top = self.bars.draw(&mut drawing, (left, right), top) + 24.0;
        if !self.lines.lines.is_empty() {
            top = self.lines.draw(&mut drawing, left, top) + 10.0;
        }
        for (number, note) in self.notes.iter().enumerate() {
            let y = top + 14.0 + 16.0 * number as f64;
            drawing.label((12.0, y), Anchor::Start, SMALL, note);
        }
        drawing
    }
}
