//! The table and the picture.
use super::jobs::Kind;
use std::fmt::Write;

pub struct Row {
    pub name: &'static str,
    pub kind: Kind,
    pub cut: &'static str,
    pub steps: u64,
    pub ours: f64,
    pub theirs: f64,
}

impl Row {
    fn ratio(&self) -> f64 {
        self.ours / self.theirs
    }
}

/// The number by which all of them divided multiply to one, found by halving: a logarithm would need a library that the cross link lacks.
fn geometric_mean(ratios: &[f64]) -> f64 {
    let (mut low, mut high) = (0.001, 1_000.0);
    for _ in 0..60 {
        let middle = (low + high) / 2.0;
        if ratios.iter().map(|r| r / middle).product::<f64>() > 1.0 {
            low = middle;
        } else {
            high = middle;
        }
    }
    low
}

fn of<'a>(rows: &'a [Row], kind: Kind, cut: &'a str) -> impl Iterator<Item = &'a Row> {
    rows.iter().filter(move |r| r.kind == kind && r.cut == cut)
}

/// The targets, each with what was measured.
fn targets(rows: &[Row]) -> Vec<(String, f64, f64)> {
    let mut all = Vec::new();
    let uncut: Vec<f64> = of(rows, Kind::Items, "uncut").map(Row::ratio).collect();
    all.push(("vectors, bits and moves uncut, geometric mean".into(), geometric_mean(&uncut), 1.5));
    all.push(("vectors, bits and moves uncut, the slowest".into(), uncut.iter().copied().fold(0.0, f64::max), 3.0));
    all.push(("scalar loop uncut".into(), of(rows, Kind::Scalar, "uncut").map(Row::ratio).fold(0.0, f64::max), 1.5));
    let cut: Vec<f64> = rows
        .iter()
        .filter(|r| r.cut == "uncut")
        .zip(rows.iter().filter(|r| r.cut == "by 1,000"))
        .map(|(whole, parts)| parts.ours / whole.ours)
        .collect();
    all.push(("cut by 1,000 to uncut, the proved call by itself, geometric mean".into(), geometric_mean(&cut), 1.1));
    all.push(("cut by 1,000 to uncut, the slowest".into(), cut.iter().copied().fold(0.0, f64::max), 1.1));
    let by_one: Vec<f64> = rows.iter().filter(|r| r.cut == "by 1").map(Row::ratio).collect();
    all.push(("cut by 1, geometric mean".into(), geometric_mean(&by_one), 1.5));
    all.push(("cut by 1, the slowest".into(), by_one.iter().copied().fold(0.0, f64::max), 1.5));
    all
}

/// The rows as a table of Markdown.
pub fn text(rows: &[Row]) -> String {
    let mut out = String::from("| Workload | Cut | Steps | Proved, ns a step | Peer, ns a step | Ratio |\n|---|---|---|---|---|---|\n");
    for row in rows {
        let steps = row.steps as f64;
        let _ = writeln!(out, "| {} | {} | {} | {:.2} | {:.2} | {:.2} |", row.name, row.cut, row.steps, row.ours / steps, row.theirs / steps, row.ratio());
    }
    out.push_str("\n| Target | Measured | At most | |\n|---|---|---|---|\n");
    for (what, measured, most) in targets(rows) {
        let _ = writeln!(out, "| {what} | {measured:.2} | {most:.1} | {} |", if measured <= most { "met" } else { "not met" });
    }
    out
}

/// A bar for each workload and cut: the ratio to the peer.
pub fn picture(rows: &[Row]) -> String {
    let scale = 120.0;
    let height = 40 + 15 * rows.len();
    let mut out = format!("<svg xmlns=\"http://www.w3.org/2000/svg\" viewBox=\"0 0 860 {height}\" font-family=\"sans-serif\" font-size=\"11\">\n");
    let _ = writeln!(out, "<text x=\"10\" y=\"16\" font-size=\"13\">Time of the proved call as a ratio to the peer's (1 is the peer; shorter is faster)</text>");
    for (k, row) in rows.iter().enumerate() {
        let y = 28 + 15 * k;
        let colour = match row.cut {
            "uncut" => "#35536f",
            "by 1,000" => "#7c9ab5",
            _ => "#c9a24b",
        };
        let width = (row.ratio() * scale).min(480.0);
        let _ = writeln!(out, "<text x=\"270\" y=\"{}\" text-anchor=\"end\">{}, {}</text>", y + 9, row.name, row.cut);
        let _ = writeln!(out, "<rect x=\"280\" y=\"{y}\" width=\"{width:.1}\" height=\"11\" fill=\"{colour}\"/>");
        let _ = writeln!(out, "<text x=\"{:.1}\" y=\"{}\">{:.2}</text>", 286.0 + width, y + 9, row.ratio());
    }
    let x = 280.0 + scale;
    let _ = writeln!(out, "<line x1=\"{x}\" y1=\"24\" x2=\"{x}\" y2=\"{}\" stroke=\"#a33\" stroke-dasharray=\"4 3\"/>", height - 10);
    out.push_str("</svg>\n");
    out
}
