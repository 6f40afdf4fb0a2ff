//! The shapes of uses: squares for fixed ones, circles for classes, triangles for groups; hollow for a use, full for
//! a definition.

use crate::svg::{N, Svg};

/// A kind's outline around the origin, and its style.
fn shape(kind: u32) -> (&'static str, &'static str) {
    const SQUARE: &str = "M-4 -4H4V4H-4Z";
    const CIRCLE: &str = "M-4.4 0a4.4 4.4 0 1 0 8.8 0a4.4 4.4 0 1 0 -8.8 0Z";
    const TRIANGLE: &str = "M0 -5L5.2 4H-5.2Z";
    match kind {
        0 => (SQUARE, "full"),
        1 => (SQUARE, "hollow"),
        2 => ("M-5 -4L5 4V-4L-5 4Z", "hollow"),
        3 => ("M-4 -4L4 4M-4 4L4 -4", "stroke"),
        4 => (CIRCLE, "hollow"),
        5 => (CIRCLE, "full"),
        6 => (TRIANGLE, "hollow"),
        7 => (TRIANGLE, "full"),
        8 => ("M0 -5V4.5M-3.8 0.7L0 4.7L3.8 0.7", "stroke"),
        9 => ("M0 5V-4.5M-3.8 -0.7L0 -4.7L3.8 -0.7", "stroke"),
        _ => ("M-4 0H4", "stroke"),
    }
}

/// A mark at a place, over a white edge.
pub fn draw(svg: &mut Svg, kind: u32, (x, y): (f64, f64)) {
    let (outline, style) = shape(kind);
    let to = format!("translate({} {})", N(x), N(y));
    svg.open("g", &[("transform", &to)]);
    svg.path(outline, "halo");
    svg.path(outline, style);
    svg.close();
}
