// The results as a table and as a picture.
use crate::Row;

fn short(x: f64) -> String {
    if x >= 100.0 { format!("{x:.0}") } else if x >= 10.0 { format!("{x:.1}") } else if x >= 0.1 { format!("{x:.2}") } else { format!("{x:.3}") }
}

pub fn markdown(rows: &[Row], rounds: usize) {
    println!("Measured on {}, each the median of {rounds} rounds or of 5 for the paper's benchmark. Ratio: the library's time by the other's.\n", std::env::consts::ARCH);
    println!("| Job | Library | Against | Takes | Ratio |");
    println!("|---|---:|---|---:|---:|");
    for r in rows {
        println!("| {} | {} {} | {} | {} {} | {} |", r.job, short(r.library), r.unit, r.against, short(r.other), r.unit, short(r.ratio));
    }
}

const LEFT: f64 = 560.0;
const WIDTH: f64 = 420.0;
const HEIGHT: f64 = 34.0;

// Ratios from 1/256 to 4,096 on a logarithmic scale.
fn place(ratio: f64) -> f64 {
    LEFT + WIDTH * ((ratio.log2() + 8.0) / 20.0).clamp(0.0, 1.0)
}

fn escape(text: &str) -> String {
    text.replace('&', "&amp;").replace('<', "&lt;")
}

pub fn svg(rows: &[Row]) -> String {
    let tall = 60.0 + HEIGHT * rows.len() as f64;
    let mut out = format!(
        "<svg xmlns=\"http://www.w3.org/2000/svg\" viewBox=\"0 0 1060 {tall}\" font-family=\"sans-serif\" font-size=\"12\">\n\
         <rect width=\"1060\" height=\"{tall}\" fill=\"white\"/>\n\
         <text x=\"12\" y=\"24\" font-size=\"15\">Time of the library divided by that of the other (below 1: the library is faster)</text>\n"
    );
    for power in (-8..=12).step_by(2) {
        let x = place(2f64.powi(power));
        let name = if power < 0 { format!("1/{}", 1 << -power) } else { format!("{}", 1 << power) };
        let (colour, width) = if power == 0 { ("#333", 1.5) } else { ("#ddd", 1.0) };
        out += &format!(
            "<line x1=\"{x:.1}\" y1=\"50\" x2=\"{x:.1}\" y2=\"{tall}\" stroke=\"{colour}\" stroke-width=\"{width}\"/>\
             <text x=\"{x:.1}\" y=\"44\" text-anchor=\"middle\" fill=\"#555\">{name}</text>\n"
        );
    }
    for (k, r) in rows.iter().enumerate() {
        let y = 56.0 + HEIGHT * k as f64;
        let (from, to) = if r.ratio < 1.0 { (place(r.ratio), place(1.0)) } else { (place(1.0), place(r.ratio)) };
        let colour = if r.ratio <= 1.0 { "#2a7f62" } else { "#b5542a" };
        out += &format!(
            "<text x=\"12\" y=\"{:.1}\">{}</text><text x=\"12\" y=\"{:.1}\" font-size=\"11\" fill=\"#666\">against {}</text>\
             <rect x=\"{from:.1}\" y=\"{:.1}\" width=\"{:.1}\" height=\"16\" fill=\"{colour}\"/>\
             <text x=\"{:.1}\" y=\"{:.1}\">{}</text>\n",
            y + 13.0, escape(&r.job), y + 26.0, escape(r.against), y + 6.0, (to - from).max(1.0), to.max(place(1.0)) + 6.0, y + 18.0, short(r.ratio)
        );
    }
    out + "</svg>\n"
}
