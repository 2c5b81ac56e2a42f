//! The measurements as a picture: for each call and length a bar for the library and one for the Rust implementation.

use crate::Measured;
use std::fmt::Write;

const LEFT: usize = 330;
const WIDTH: usize = 420;
const ROW: usize = 26;
const TOP: usize = 64;

fn speed(length: usize, nanoseconds: f64) -> f64 {
    1000.0 * length as f64 / nanoseconds
}

fn bar(drawn: &mut String, y: usize, colour: &str, value: f64, most: f64) {
    let width = WIDTH as f64 * value / most;
    let end = LEFT as f64 + width + 5.0;
    let text = y + 9;
    writeln!(drawn, r#"<rect x="{LEFT}" y="{y}" width="{width:.1}" height="10" fill="{colour}"/>"#).unwrap();
    writeln!(drawn, r#"<text x="{end:.1}" y="{text}" font-size="10" fill="{colour}">{value:.0}</text>"#).unwrap();
}

pub fn drawn(rows: &[&Measured]) -> String {
    let most = rows.iter().map(|one| speed(one.length, one.library.min(one.fast))).fold(0.0, f64::max);
    let (height, width) = (TOP + ROW * rows.len() + 12, LEFT + WIDTH + 60);
    let mut drawn = String::new();
    writeln!(drawn, r#"<svg xmlns="http://www.w3.org/2000/svg" width="{width}" height="{height}" font-family="sans-serif">"#).unwrap();
    writeln!(drawn, r#"<rect width="{width}" height="{height}" fill="white"/>"#).unwrap();
    writeln!(drawn, r#"<text x="12" y="24" font-size="15">Megabytes of data a second, one core</text>"#).unwrap();
    writeln!(drawn, r##"<text x="12" y="46" font-size="12" fill="#1f4e79">the proved library</text>"##).unwrap();
    writeln!(drawn, r##"<text x="150" y="46" font-size="12" fill="#c0792a">Rust, written for speed</text>"##).unwrap();
    for (row, one) in rows.iter().enumerate() {
        let y = TOP + ROW * row;
        let text = y + 14;
        writeln!(drawn, r#"<text x="12" y="{text}" font-size="12">{}, {} bytes</text>"#, one.call.name(), one.length).unwrap();
        bar(&mut drawn, y, "#1f4e79", speed(one.length, one.library), most);
        bar(&mut drawn, y + 11, "#c0792a", speed(one.length, one.fast), most);
    }
    drawn.push_str("</svg>\n");
    drawn
}
