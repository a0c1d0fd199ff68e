//! A plot with logarithmic axes: a ratio of times over the number of names, a panel for each call, with a line at 1, below which the product is faster.
use std::fmt::Write;

/// A series: its name, its colour, and the ratio at each size.
pub struct Series {
    pub name: &'static str,
    pub colour: &'static str,
    pub points: Vec<(f64, f64)>,
}

pub struct Panel {
    pub title: String,
    pub series: Vec<Series>,
}

const WIDTH: f64 = 240.0;
const HEIGHT: f64 = 220.0;
/// Left of a panel, where the ratios stand, and left of the first one, where it says what they are.
const LEFT: f64 = 50.0;
const AXIS: f64 = 38.0;
const TOP: f64 = 64.0;

/// Ratios that get a line.
const RATIOS: [f64; 9] = [0.1, 0.2, 0.5, 1.0, 2.0, 5.0, 10.0, 20.0, 50.0];

/// The columns that are drawn, by their heads in the table.
const DRAWN: [(&str, &str, &str); 2] =
    [("proved / C", "against hand-written C", "#1f4e9c"), ("proved / source", "against the source's functions", "#1b6e3c")];

fn count(n: f64) -> String {
    if n < 1000.0 { format!("{n}") } else { format!("{}k", n / 1000.0) }
}

/// The panels of a table whose calls are each followed by the size, as in `look a name up, 300 names`.
pub fn panels(table: &str) -> Vec<Panel> {
    let mut rows = table.lines().map(|l| l.split('|').map(str::trim).collect::<Vec<_>>());
    let head = rows.next().expect("a table");
    let column = |name: &str| head.iter().position(|h| *h == name).unwrap_or_else(|| panic!("no column {name}"));
    let mut panels: Vec<Panel> = vec![];
    for row in rows.skip(1) {
        let (call, size) = row[column("call")].rsplit_once(", ").expect("a call and a size");
        let size: f64 = size.strip_suffix(" names").and_then(|n| n.parse().ok()).expect("a number of names");
        if panels.last().is_none_or(|p| p.title != call) {
            let series = DRAWN.iter().map(|(_, name, colour)| Series { name, colour, points: vec![] }).collect();
            panels.push(Panel { title: call.into(), series });
        }
        for (series, (head, _, _)) in panels.last_mut().expect("a panel").series.iter_mut().zip(DRAWN) {
            series.points.push((size, row[column(head)].parse().expect("a ratio")));
        }
    }
    panels
}

impl Panel {
    /// `low` and `high` are the ratios at the bottom and the top.
    fn draw(&self, out: &mut String, left: f64, low: f64, high: f64) {
        let sizes: Vec<f64> = self.series[0].points.iter().map(|p| p.0).collect();
        let (first, last) = (sizes[0], sizes[sizes.len() - 1]);
        let part = |v: f64, low: f64, high: f64| (v / low).ln() / (high / low).ln();
        let x = |v: f64| left + 10.0 + part(v, first, last) * (WIDTH - 20.0);
        let y = |v: f64| TOP + HEIGHT - part(v, low, high) * HEIGHT;
        let (middle, bottom) = (left + WIDTH / 2.0, TOP + HEIGHT);
        writeln!(out, r##"<rect x="{left}" y="{:.1}" width="{WIDTH}" height="{:.1}" fill="#f1f7f1"/>"##, y(1.0), bottom - y(1.0)).unwrap();
        writeln!(out, r#"<text x="{middle}" y="{}" text-anchor="middle" font-weight="bold">{}</text>"#, TOP - 10.0, self.title).unwrap();
        writeln!(out, r#"<text x="{middle}" y="{}" text-anchor="middle">names in the table</text>"#, bottom + 33.0).unwrap();
        for r in RATIOS.into_iter().filter(|r| (low..=high).contains(r)) {
            let (at, colour, width) = if r == 1.0 { (y(r), "#000", 1.5) } else { (y(r), "#ddd", 1.0) };
            writeln!(out, r#"<line x1="{left}" y1="{at:.1}" x2="{}" y2="{at:.1}" stroke="{colour}" stroke-width="{width}"/>"#, left + WIDTH).unwrap();
            writeln!(out, r#"<text x="{}" y="{:.1}" text-anchor="end">{r}</text>"#, left - 4.0, at + 4.0).unwrap();
        }
        for n in sizes {
            let at = x(n);
            writeln!(out, r##"<line x1="{at:.1}" y1="{TOP}" x2="{at:.1}" y2="{bottom}" stroke="#ddd"/>"##).unwrap();
            writeln!(out, r#"<text x="{at:.1}" y="{}" text-anchor="middle">{}</text>"#, bottom + 16.0, count(n)).unwrap();
        }
        for s in &self.series {
            let points: Vec<String> = s.points.iter().map(|p| format!("{:.1},{:.1}", x(p.0), y(p.1))).collect();
            writeln!(out, r#"<polyline points="{}" fill="none" stroke="{}" stroke-width="2"/>"#, points.join(" "), s.colour).unwrap();
            for p in &s.points {
                writeln!(out, r#"<circle cx="{:.1}" cy="{:.1}" r="3" fill="{}"/>"#, x(p.0), y(p.1), s.colour).unwrap();
            }
        }
    }
}

/// The panels side by side below a title, with what the ratios are at the left and one key below.
pub fn svg(panels: &[Panel]) -> String {
    let ratios = || panels.iter().flat_map(|p| &p.series).flat_map(|s| s.points.iter().map(|p| p.1));
    let low = RATIOS.into_iter().rev().find(|&r| ratios().all(|v| r <= v)).unwrap_or(RATIOS[0]).min(0.5);
    let high = RATIOS.into_iter().find(|&r| ratios().all(|v| v <= r)).unwrap_or(RATIOS[RATIOS.len() - 1]).max(2.0);
    let width = AXIS + panels.len() as f64 * (WIDTH + LEFT + 10.0) + 10.0;
    let height = TOP + HEIGHT + 76.0;
    let mut out = format!(
        r#"<svg xmlns="http://www.w3.org/2000/svg" viewBox="0 0 {width} {height}" font-family="sans-serif" font-size="12">
<rect width="{width}" height="{height}" fill="white"/>
<text x="{}" y="22" font-size="15" font-weight="bold">Time of the product's calls for proved callers, divided by a baseline's: below 1 the product is faster</text>
"#,
        AXIS + LEFT
    );
    for (k, line) in ["product's time / baseline's", "(below 1 the product is faster)"].into_iter().enumerate() {
        let (x, y) = (18.0 + 16.0 * k as f64, TOP + HEIGHT / 2.0);
        writeln!(out, r#"<text x="{x}" y="{y}" text-anchor="middle" transform="rotate(-90 {x} {y})">{line}</text>"#).unwrap();
    }
    for (i, p) in panels.iter().enumerate() {
        p.draw(&mut out, AXIS + LEFT + i as f64 * (WIDTH + LEFT + 10.0), low, high);
    }
    let down = TOP + HEIGHT + 58.0;
    for (i, s) in panels[0].series.iter().enumerate() {
        let at = AXIS + LEFT + i as f64 * 250.0;
        writeln!(out, r#"<line x1="{at}" y1="{down}" x2="{}" y2="{down}" stroke="{}" stroke-width="2"/>"#, at + 24.0, s.colour).unwrap();
        writeln!(out, r#"<text x="{}" y="{}">{}</text>"#, at + 30.0, down + 4.0, s.name).unwrap();
    }
    writeln!(out, r#"<text x="{}" y="{}" text-anchor="end">both axes are logarithmic</text>"#, width - 20.0, down + 4.0).unwrap();
    out + "</svg>\n"
}
