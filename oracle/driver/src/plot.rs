//! A page of small plots, both axes by powers of ten, as SVG.

/// The time of each side, in nanoseconds, on a sheet of so many bytes.
pub struct Point {
    pub bytes: usize,
    pub times: [Option<f64>; 3],
}

const SERIES: [(&str, &str); 3] =
    [("ours", "#0b6e4f"), ("sheet to sheet in Rust", "#c0392b"), ("source alone", "#34495e")];
const REFERENCE: &str = "#999999";
const COLUMNS: usize = 3;
const WIDTH: f64 = 300.0;
const HEIGHT: f64 = 230.0;
const LEFT: f64 = 52.0;
const TOP: f64 = 28.0;
const RIGHT: f64 = 26.0;
const BOTTOM: f64 = 34.0;
const LEGEND: f64 = 34.0;

/// Where a value lies between two powers of ten.
struct Axis {
    low: i32,
    high: i32,
    from: f64,
    to: f64,
}

impl Axis {
    fn new(values: impl Iterator<Item = f64> + Clone, from: f64, to: f64) -> Axis {
        let low = values.clone().fold(f64::INFINITY, f64::min).log10().floor() as i32;
        let high = values.fold(0.0, f64::max).log10().ceil() as i32;
        Axis { low, high: high.max(low + 1), from, to }
    }

    fn at(&self, value: f64) -> f64 {
        let part = (value.log10() - f64::from(self.low)) / f64::from(self.high - self.low);
        self.from + part * (self.to - self.from)
    }

    fn powers(&self) -> impl Iterator<Item = f64> {
        (self.low..=self.high).map(|power| 10f64.powi(power))
    }
}

/// The picture: a panel for each class, with its points.
pub fn svg(panels: &[(&str, Vec<Point>)]) -> String {
    let rows = panels.len().div_ceil(COLUMNS);
    let (width, height) = (WIDTH * COLUMNS as f64, LEGEND + HEIGHT * rows as f64);
    let mut text = format!(
        "<svg xmlns=\"http://www.w3.org/2000/svg\" width=\"{width}\" height=\"{height}\" \
         viewBox=\"0 0 {width} {height}\" font-family=\"sans-serif\" font-size=\"10\">\n\
         <rect width=\"100%\" height=\"100%\" fill=\"white\"/>\n"
    );
    text += &legend();
    for (at, (name, points)) in panels.iter().enumerate() {
        let (x, y) = (WIDTH * (at % COLUMNS) as f64, LEGEND + HEIGHT * (at / COLUMNS) as f64);
        text += &format!("<g transform=\"translate({x},{y})\">\n{}</g>\n", panel(name, points));
    }
    text + "</svg>\n"
}

fn legend() -> String {
    let mut text = String::new();
    let names = SERIES.iter().chain([&("in proportion to the sheet", REFERENCE)]);
    for (at, (name, colour)) in names.enumerate() {
        let x = LEFT + 190.0 * at as f64;
        let dash = if at == SERIES.len() { " stroke-dasharray=\"4 3\"" } else { "" };
        text += &format!(
            "<line x1=\"{x}\" y1=\"18\" x2=\"{}\" y2=\"18\" stroke=\"{colour}\" \
             stroke-width=\"2\"{dash}/>\n",
            x + 22.0
        );
        text += &format!("<text x=\"{}\" y=\"21.5\">{name}</text>\n", x + 28.0);
    }
    text
}

fn panel(name: &str, points: &[Point]) -> String {
    let bytes = points.iter().map(|point| point.bytes as f64);
    let times = points.iter().flat_map(|point| point.times.iter().flatten().copied());
    let across = Axis::new(bytes, LEFT, WIDTH - RIGHT);
    let up = Axis::new(times, HEIGHT - BOTTOM, TOP);
    let mut text =
        format!("<text x=\"{LEFT}\" y=\"{}\" font-size=\"12\">{name}</text>\n", TOP - 9.0);
    text += &grid(&across, &up);
    text += &reference(&across, &up, points);
    for (side, (_, colour)) in SERIES.iter().enumerate() {
        let places: Vec<String> = points
            .iter()
            .filter_map(|point| {
                let (x, y) = (across.at(point.bytes as f64), up.at(point.times[side]?));
                Some(format!("{x:.1},{y:.1}"))
            })
            .collect();
        text += &format!(
            "<polyline points=\"{}\" fill=\"none\" stroke=\"{colour}\" stroke-width=\"1.6\"/>\n",
            places.join(" ")
        );
    }
    text
}

fn grid(across: &Axis, up: &Axis) -> String {
    let mut text = String::new();
    let (bottom, right) = (HEIGHT - BOTTOM, WIDTH - RIGHT);
    let line = |x1: f64, y1: f64, x2: f64, y2: f64| {
        format!(
            "<line x1=\"{x1:.1}\" y1=\"{y1:.1}\" x2=\"{x2:.1}\" y2=\"{y2:.1}\" \
             stroke=\"#dddddd\"/>\n"
        )
    };
    for power in across.powers() {
        let x = across.at(power);
        text += &line(x, TOP, x, bottom);
        text += &format!(
            "<text x=\"{x:.1}\" y=\"{:.1}\" text-anchor=\"middle\">{}</text>\n",
            bottom + 13.0,
            bytes_word(power)
        );
    }
    for power in up.powers() {
        let y = up.at(power);
        text += &line(LEFT, y, right, y);
        text += &format!(
            "<text x=\"{:.1}\" y=\"{:.1}\" text-anchor=\"end\">{}</text>\n",
            LEFT - 5.0,
            y + 3.5,
            time_word(power)
        );
    }
    text
}

fn bytes_word(bytes: f64) -> String {
    match bytes {
        b if b >= 1000.0 => format!("{} kB", b / 1000.0),
        b => format!("{b} B"),
    }
}

fn time_word(time: f64) -> String {
    match time {
        t if t >= 1e6 => format!("{} ms", t / 1e6),
        t if t >= 1e3 => format!("{} µs", t / 1e3),
        t => format!("{t} ns"),
    }
}

/// The line of time in proportion to the sheet from our first point on, as far as it lies
/// inside.
fn reference(across: &Axis, up: &Axis, points: &[Point]) -> String {
    let (Some(first), Some(last)) = (points.first(), points.last()) else { return String::new() };
    let (bytes, Some(time)) = (first.bytes as f64, first.times[0]) else { return String::new() };
    let end = (bytes * 10f64.powi(up.high) / time).min(last.bytes as f64);
    format!(
        "<line x1=\"{:.1}\" y1=\"{:.1}\" x2=\"{:.1}\" y2=\"{:.1}\" stroke=\"{REFERENCE}\" \
         stroke-dasharray=\"4 3\" stroke-width=\"1.2\"/>\n",
        across.at(bytes),
        up.at(time),
        across.at(end),
        up.at(time * end / bytes)
    )
}
