//! The benchmark's picture with made-up ratios: its labels are apart, and its
//! styles differ, for any number of molecules, listers and lengths.

use flat_tests::plot::bars::{BarPanel, Series};
use flat_tests::plot::drawing::Drawing;
use flat_tests::plot::lines::{Line, LinePanel};
use flat_tests::plot::style::{bar_style, line_style, COLORS, HATCHES};
use flat_tests::plot::{ticks, Picture};
use flat_tests::rng::Rng;

fn name(molecule: usize) -> String {
    match molecule % 4 {
        0 => format!("WWWMMM & mmm <{molecule}>"),
        1 => "buckminsterfullerene".to_string(),
        2 => format!("random, {molecule} / {}", 2 * molecule),
        _ => format!("x{molecule}"),
    }
}

/// A ratio from 1 / most to most.
fn ratio(rng: &mut Rng, most: f64) -> f64 {
    most.powf(rng.below(2001) as f64 / 1000.0 - 1.0)
}

/// The picture, in which a molecule's number of timed lengths is from 1 up.
fn picture(molecules: usize, listers: usize, lengths: usize, most: f64) -> Picture {
    let mut rng = Rng::new((molecules * 10_000 + listers * 100 + lengths) as u64);
    let series = (0..listers).map(|lister| Series {
        about: format!("against lister {lister}"),
        values: (0..molecules).map(|_| ratio(&mut rng, most)).collect(),
    });
    let series = series.collect();
    let lines = (0..molecules).map(|molecule| Line {
        name: name(molecule),
        points: (0..=molecule % lengths)
            .map(|length| (10f64.powi(length as i32), ratio(&mut rng, most)))
            .collect(),
    });
    Picture {
        lines: LinePanel {
            title: "Lines".to_string(),
            x_axis: "length (trials)".to_string(),
            y_axis: "ratio of times (no unit)".to_string(),
            lines: lines.collect(),
        },
        bars: BarPanel {
            title: "Bars".to_string(),
            axis: "ratio of times (no unit)".to_string(),
            names: (0..molecules).map(name).collect(),
            series,
            marks: vec![
                (0.75, "an aim below one".to_string()),
                (1.0, "one".to_string()),
                (1.1, "an aim above one".to_string()),
            ],
        },
        notes: vec!["a note".to_string(), "another".to_string()],
    }
}

fn check_labels(drawing: &Drawing, what: &str) {
    let (labels, page) = (&drawing.labels, drawing.page());
    for (number, label) in labels.iter().enumerate() {
        for other in &labels[..number] {
            let apart = !label.area.meets(&other.area);
            assert!(apart, "{what}: {label:?} overlaps {other:?}");
        }
        for shape in &drawing.shapes {
            let apart = !label.area.meets(shape);
            assert!(apart, "{what}: {label:?} overlaps a shape, {shape:?}");
        }
        let area = label.area;
        let within = area.left >= page.left
            && area.top >= page.top
            && area.right <= page.right
            && area.bottom <= page.bottom;
        assert!(within, "{what}: {label:?} is beyond {page:?}");
    }
}

#[test]
fn labels_are_apart_from_each_other_and_from_what_is_drawn() {
    for molecules in [1, 14, 40] {
        for listers in [1, 3, 7] {
            for lengths in [1, 5, 12] {
                for most in [1.01, 4.0, 300.0] {
                    let what = format!("{molecules}, {listers}, {lengths}, {most}");
                    check_labels(&picture(molecules, listers, lengths, most).draw(), &what);
                }
            }
        }
    }
}

#[test]
fn every_molecule_lister_and_length_is_drawn() {
    let picture = picture(24, 3, 5, 4.0);
    let drawn = picture.draw();
    for molecule in 0..24 {
        let labels = drawn.labels.iter();
        let named = labels.filter(|label| label.text == name(molecule)).count();
        assert!(named >= 2, "{} is not in both panels", name(molecule));
    }
    let svg = drawn.svg();
    let count = |part: &str| svg.matches(part).count();
    let points = || picture.lines.lines.iter().map(|line| line.points.len());
    let lines = points().filter(|&points| points > 1).count();
    // Each series, line and marker is also in a legend.
    assert_eq!(count("fill=\"url(#bar"), 24 * 3 + 3, "bars");
    assert_eq!(count("<polyline"), 2 * lines, "lines");
    assert_eq!(count("translate("), points().sum::<usize>() + 24, "markers");
    assert!(svg.contains("WWWMMM &amp; mmm &lt;0&gt;"));
}

/// The number behind each `before` of a text.
fn numbers_behind(text: &str, before: &str) -> Vec<f64> {
    let ends: &[char] = &['"', ' ', ')'];
    let rest = text.split(before).skip(1);
    rest.map(|rest| {
        rest.split(ends)
            .next()
            .and_then(|number| number.parse().ok())
    })
    .map(|number| number.expect("a number"))
    .collect()
}

#[test]
fn bars_and_points_are_where_their_numbers_say() {
    let mut picture = picture(3, 1, 3, 4.0);
    picture.bars.series[0].values = vec![0.5, 1.0, 3.0];
    picture.lines.lines.truncate(1);
    picture.lines.lines[0].points = vec![(10.0, 1.0), (100.0, 3.0), (1000.0, 9.0)];
    let svg = picture.draw().svg();
    let of = |part: &str| -> String { svg.lines().filter(|line| line.contains(part)).collect() };
    let near = |one: f64, two: f64| assert!((one - two).abs() < 0.5, "{one} is not {two}");

    // The first bar is the legend's.
    let widths = numbers_behind(&of("fill=\"url(#bar0)\""), " width=\"");
    near(2.0 * widths[1], widths[2]);
    near(3.0 * widths[2], widths[3]);
    // The last marker is the legend's.
    let markers = of("translate(");
    let x = numbers_behind(&markers, "translate(");
    near(x[1] - x[0], x[2] - x[1]);
    let places = markers.split("translate(").skip(1);
    let y: Vec<f64> = places
        .map(|place| place.split(&[' ', ')'][..]).nth(1).expect("a height"))
        .map(|height| height.parse().expect("a number"))
        .collect();
    near(y[0] - y[1], y[1] - y[2]);
    assert!(x[0] < x[1] && y[0] > y[1], "the directions of the axes");
}

#[test]
fn lines_differ_by_colour_and_without_it() {
    for number in 0..40 {
        for other in 0..number {
            let (one, two) = (line_style(number), line_style(other));
            let (dash, marker) = (one.dash != two.dash, one.marker != two.marker);
            assert!(dash || marker, "lines {other} and {number}");
            if number < COLORS.len() {
                assert_ne!(one.color, two.color, "lines {other} and {number}");
            }
            // Lines of one colour differ in both dash pattern and marker.
            if number < 24 && one.color == two.color {
                assert!(dash && marker, "lines {other} and {number}");
            }
        }
    }
}

#[test]
fn bars_differ_by_colour_and_without_it() {
    for number in 0..HATCHES.len() {
        for other in 0..number {
            let (one, two) = (bar_style(number), bar_style(other));
            assert!(one.color != two.color && one.hatch != two.hatch);
        }
    }
}

#[test]
fn ticks_are_round_and_reach_the_ends() {
    let shown = |numbers: Vec<f64>| -> Vec<String> {
        let mut numbers = numbers;
        numbers.sort_by(f64::total_cmp);
        numbers.into_iter().map(ticks::shown).collect()
    };
    assert_eq!(
        shown(ticks::even(2.2)),
        ["0", "0.5", "1", "1.5", "2", "2.5"]
    );
    assert_eq!(
        shown(ticks::even(12.0)),
        ["0", "2", "4", "6", "8", "10", "12"]
    );
    assert_eq!(
        shown(ticks::by_powers(0.95, 12.0, 0.25)),
        ["1", "2", "5", "10"]
    );
    assert_eq!(ticks::shown(1_000_000.0), "1 000 000");
    assert_eq!(ticks::shown(0.125), "0.125");
    for tenths in 1..2000 {
        let highest = tenths as f64 / 10.0;
        let ticks = ticks::even(highest);
        assert!(ticks.len() <= 12 && *ticks.last().expect("a tick") >= highest);
    }
}
