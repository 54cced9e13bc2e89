//! Round numbers along an axis.

/// First digits of round numbers, the roundest first.
const DIGITS: [f64; 8] = [1.0, 2.0, 5.0, 1.5, 3.0, 7.0, 1.2, 1.1];

/// A number without needless decimals, its thousands apart.
pub fn shown(number: f64) -> String {
    let text = format!("{:.4}", number);
    let text = text.trim_end_matches('0').trim_end_matches('.');
    let whole = text.find('.').unwrap_or(text.len());
    let mut out = String::new();
    for (place, character) in text.chars().enumerate() {
        if place > 0 && place < whole && (whole - place) % 3 == 0 {
            out.push(' ');
        }
        out.push(character);
    }
    out
}

/// Ticks from 0 in at most 10 even and round steps, the last at `highest` or
/// above it.
pub fn even(highest: f64) -> Vec<f64> {
    let power = 10f64.powf((highest / 10.0).log10().floor());
    let steps = [1.0, 2.0, 5.0, 10.0].map(|digit| digit * power);
    let fits = |step: &&f64| highest / **step <= 10.0;
    let step = *steps.iter().find(fits).unwrap_or(&steps[3]);
    let count = (highest / step).ceil() as usize;
    (0..=count).map(|number| step * number as f64).collect()
}

/// Round numbers from `low` to `high`, so many powers of ten apart at least.
pub fn by_powers(low: f64, high: f64, apart: f64) -> Vec<f64> {
    let powers = low.log10().floor() as i32..=high.log10().ceil() as i32;
    let mut kept: Vec<f64> = Vec::new();
    for digit in DIGITS {
        for number in powers.clone().map(|power| digit * 10f64.powi(power)) {
            let free = |other: &f64| (number / other).log10().abs() >= apart;
            if (low..=high).contains(&number) && kept.iter().all(free) {
                kept.push(number);
            }
        }
    }
    kept
}
