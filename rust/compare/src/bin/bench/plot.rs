//! The benchmark's plot: ratios by shape, and time per multiply-add over sizes, one panel a kind.

use crate::Measured;
use std::fmt::Write;

const KINDS: [&str; 4] = ["sgemm", "dgemm", "cgemm", "zgemm"];
const COLOURS: [&str; 4] = ["#1b6ca8", "#c8553d", "#6a994e", "#8a8a8a"];
const WIDE: f64 = 560.0;
const HIGH: f64 = 250.0;

/// The page as SVG.
pub fn page(shapes: &[Measured], growth: &[Measured]) -> String {
    let mut out = String::new();
    let (width, height) = (2.0 * WIDE + 40.0, 4.0 * HIGH + 150.0);
    out.push_str(r##"<svg xmlns="http://www.w3.org/2000/svg" font-family="sans-serif" font-size="11" "##);
    write!(out, r##"width="{width}" height="{height}"><rect width="100%" height="100%" fill="#fff"/>"##).unwrap();
    text(&mut out, 20.0, 24.0, "start", 15, "Time of ours over the others', by shape (logarithmic; below the dark line ours is faster)");
    legend(&mut out, 20.0, 40.0, &[("over plain Rust (a)", COLOURS[1]), ("over the fallback (b)", COLOURS[2]), ("over the default build (c)", COLOURS[3])]);
    text(&mut out, 20.0, 2.0 * HIGH + 84.0, "start", 15, "Nanoseconds a multiply-add over the side of a square (both scales logarithmic)");
    legend(&mut out, 20.0, 2.0 * HIGH + 100.0, &[("ours", COLOURS[0]), ("plain Rust (a)", COLOURS[1]), ("fallback (b)", COLOURS[2]), ("default build (c)", COLOURS[3])]);
    for (i, kind) in KINDS.iter().enumerate() {
        let (x, y) = (20.0 + (i % 2) as f64 * WIDE, 50.0 + (i / 2) as f64 * HIGH);
        let of_kind = |all: &'_ [Measured]| -> Vec<usize> { (0..all.len()).filter(|&j| all[j].kind == *kind).collect() };
        ratios(&mut out, x, y, kind, &of_kind(shapes).iter().map(|&j| &shapes[j]).collect::<Vec<_>>());
        lines(&mut out, x, y + 2.0 * HIGH + 60.0, kind, &of_kind(growth).iter().map(|&j| &growth[j]).collect::<Vec<_>>());
    }
    out.push_str("</svg>\n");
    out
}

fn text(out: &mut String, x: f64, y: f64, anchor: &str, size: u32, words: &str) {
    write!(out, r##"<text x="{x:.1}" y="{y:.1}" text-anchor="{anchor}" font-size="{size}" fill="#222">{words}</text>"##).unwrap();
}

fn line(out: &mut String, [x1, y1, x2, y2]: [f64; 4], colour: &str) {
    write!(out, r##"<line x1="{x1:.1}" y1="{y1:.1}" x2="{x2:.1}" y2="{y2:.1}" stroke="{colour}"/>"##).unwrap();
}

fn dot(out: &mut String, x: f64, y: f64, colour: &str) {
    write!(out, r##"<circle cx="{x:.1}" cy="{y:.1}" r="3.2" fill="{colour}"/>"##).unwrap();
}

fn legend(out: &mut String, x: f64, y: f64, entries: &[(&str, &str)]) {
    for (i, (words, colour)) in entries.iter().enumerate() {
        let x = x + 150.0 * i as f64;
        dot(out, x + 4.0, y - 4.0, colour);
        text(out, x + 12.0, y, "start", 11, words);
    }
}

/// Height of a ratio between a quarter and sixteen in a panel; what is beyond stands at the edge.
fn ratio_height(y: f64, ratio: f64) -> f64 {
    y + HIGH - 75.0 - (ratio.clamp(0.25, 16.0).log2() + 2.0) / 6.0 * (HIGH - 105.0)
}

fn ratios(out: &mut String, x: f64, y: f64, kind: &str, all: &[&Measured]) {
    text(out, x + 30.0, y + 18.0, "start", 13, kind);
    for ratio in [0.25, 0.5, 1.0, 2.0, 4.0, 8.0, 16.0] {
        let h = ratio_height(y, ratio);
        line(out, [x + 30.0, h, x + WIDE - 20.0, h], if ratio == 1.0 { "#222" } else { "#ddd" });
        text(out, x + 26.0, h + 4.0, "end", 10, &format!("{ratio}"));
    }
    let step = (WIDE - 60.0) / all.len().max(1) as f64;
    for (i, m) in all.iter().enumerate() {
        let at = x + 40.0 + step * (i as f64 + 0.5);
        for (ratio, colour) in m.ratios().iter().zip(&COLOURS[1..]) {
            dot(out, at, ratio_height(y, *ratio), colour);
        }
        let words = format!("{}{}", m.shape(), if m.strided { " s" } else { "" });
        let h = y + HIGH - 62.0;
        write!(out, r##"<text transform="translate({at:.1},{h:.1}) rotate(40)" font-size="10" fill="#222">{words}</text>"##).unwrap();
    }
    text(out, x + WIDE - 20.0, y + 18.0, "end", 10, "s: strided");
}

fn lines(out: &mut String, x: f64, y: f64, kind: &str, all: &[&Measured]) {
    text(out, x + 30.0, y + 18.0, "start", 13, kind);
    // from 0.005 to 200 nanoseconds
    let height = |t: f64| y + HIGH - 40.0 - (t.clamp(0.005, 200.0) / 0.005).log10() / 40_000f64.log10() * (HIGH - 70.0);
    let across = |side: usize| x + 40.0 + (side as f64).log2() / 10.0 * (WIDE - 70.0);
    for decade in [0.01, 0.1, 1.0, 10.0, 100.0] {
        line(out, [x + 30.0, height(decade), x + WIDE - 20.0, height(decade)], "#ddd");
        text(out, x + 26.0, height(decade) + 4.0, "end", 10, &format!("{decade}"));
    }
    for side in [1, 4, 16, 64, 256, 1024] {
        text(out, across(side), y + HIGH - 24.0, "middle", 10, &format!("{side}"));
    }
    for (which, colour) in COLOURS.iter().enumerate().rev() {
        let points: Vec<String> =
            all.iter().map(|m| format!("{:.1},{:.1}", across(m.sizes[0]), height(m.each()[which]))).collect();
        write!(out, r##"<polyline points="{}" fill="none" stroke="{colour}" stroke-width="1.6"/>"##, points.join(" ")).unwrap();
    }
}
