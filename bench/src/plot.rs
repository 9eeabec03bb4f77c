//! A picture of the judging times: growth with the inputs and with the rows; the scale of times is logarithmic.

use std::fmt::Write;

const SHAPES: [(&str, &str); 5] = [
    ("combinational", "#4477aa"),
    ("level rows", "#66ccee"),
    ("same steps", "#228833"),
    ("by chance", "#ee6677"),
    ("found last", "#aa3377"),
];
const PANEL: f64 = 340.0;
const LEFT: [f64; 2] = [70.0, 500.0];
const TOP: f64 = 40.0;
/// The powers of ten, in microseconds, at the ends of the time scale.
const DECADES: [i32; 2] = [-1, 5];

/// One printed line: what was judged, and both times.
struct Time {
    inputs: usize,
    rows: usize,
    shape: String,
    both: [f64; 2],
}

/// The picture of what `bench judging` printed.
pub fn picture(printed: &str) -> String {
    let times: Vec<Time> = printed.lines().filter_map(time).collect();
    let mut svg = String::from(
        "<svg xmlns=\"http://www.w3.org/2000/svg\" viewBox=\"0 0 1050 450\" font-family=\"sans-serif\" font-size=\"12\">\n\
         <rect width=\"1050\" height=\"450\" fill=\"white\"/>\n",
    );
    panel(&mut svg, LEFT[0], "inputs, 64 rows", &[2, 3, 5, 7, 9]);
    panel(&mut svg, LEFT[1], "rows, nine inputs", &[4, 16, 64]);
    for (k, (shape, colour)) in SHAPES.into_iter().enumerate() {
        let of_shape = || times.iter().filter(move |time| time.shape == shape);
        for side in [0, 1] {
            let by_inputs = of_shape().filter(|time| time.rows == 64);
            let points =
                by_inputs.map(|time| (across(&[2, 3, 5, 7, 9], time.inputs), time.both[side]));
            curve(&mut svg, LEFT[0], points, side, colour);
            let by_rows = of_shape().filter(|time| time.inputs == 9);
            let points = by_rows.map(|time| (across(&[4, 16, 64], time.rows), time.both[side]));
            curve(&mut svg, LEFT[1], points, side, colour);
        }
        text(&mut svg, 880.0, TOP + 20.0 + 20.0 * k as f64, colour, shape);
    }
    text(&mut svg, 880.0, TOP + 140.0, "black", "full: verified");
    text(&mut svg, 880.0, TOP + 160.0, "black", "dashed: second");
    svg + "</svg>\n"
}

fn time(line: &str) -> Option<Time> {
    let rest = line.strip_prefix("judging, ")?;
    let mut parts = rest.split(", ");
    let inputs = parts.next()?.strip_suffix(" inputs")?.parse().ok()?;
    let rows = parts.next()?.strip_suffix(" rows")?.parse().ok()?;
    let shape = parts.next()?.to_string();
    let numbers: Vec<f64> = line
        .split_whitespace()
        .filter_map(|word| word.parse().ok())
        .collect();
    let [.., verified, second, _] = numbers[..] else {
        return None;
    };
    Some(Time {
        inputs,
        rows,
        shape,
        both: [verified, second],
    })
}

/// Where a value stands among those of the scale, from 0 to 1.
fn across(scale: &[usize], value: usize) -> f64 {
    let place = scale.iter().position(|&other| other == value);
    place.unwrap_or(0) as f64 / (scale.len() - 1) as f64
}

fn up(microseconds: f64) -> f64 {
    let [low, high] = DECADES.map(f64::from);
    TOP + PANEL * (high - microseconds.log10()) / (high - low)
}

fn panel(svg: &mut String, left: f64, title: &str, scale: &[usize]) {
    for decade in DECADES[0]..=DECADES[1] {
        let (y, right) = (up(10f64.powi(decade)), left + PANEL);
        let _ = writeln!(svg, "<path d=\"M{left} {y}H{right}\" stroke=\"#dddddd\"/>");
        text(svg, left - 52.0, y + 4.0, "black", &label(decade));
    }
    for &value in scale {
        let x = left + PANEL * across(scale, value);
        text(
            svg,
            x - 6.0,
            TOP + PANEL + 18.0,
            "black",
            &value.to_string(),
        );
    }
    text(svg, left + 110.0, TOP + PANEL + 42.0, "black", title);
}

fn label(decade: i32) -> String {
    match decade {
        ..=2 => format!("{} µs", 10f64.powi(decade)),
        _ => format!("{} ms", 10f64.powi(decade - 3)),
    }
}

fn curve(
    svg: &mut String,
    left: f64,
    points: impl Iterator<Item = (f64, f64)>,
    side: usize,
    colour: &str,
) {
    let path: Vec<String> = points
        .map(|(x, time)| format!("{:.1} {:.1}", left + PANEL * x, up(time)))
        .collect();
    let dashes = ["none", "5 4"][side];
    let _ = writeln!(
        svg,
        "<path d=\"M{}\" fill=\"none\" stroke=\"{colour}\" stroke-width=\"1.6\" stroke-dasharray=\"{dashes}\"/>",
        path.join("L")
    );
}

fn text(svg: &mut String, x: f64, y: f64, colour: &str, words: &str) {
    let _ = writeln!(
        svg,
        "<text x=\"{x:.1}\" y=\"{y:.1}\" fill=\"{colour}\">{words}</text>"
    );
}
