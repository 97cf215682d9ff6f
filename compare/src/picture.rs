//! A picture of how times grow: panels side by side, both axes by factors, as SVG that any viewer shows.

use std::fmt::Write;

/// A search's seconds by its slots.
pub struct Line {
    pub name: &'static str,
    pub points: Vec<(usize, f64)>,
}

/// The lines of one memory model; all panels have the same lines in the same order.
pub struct Panel {
    pub title: String,
    pub lines: Vec<Line>,
}

const WIDTH: f64 = 980.0;
const HEIGHT: f64 = 460.0;
const LEFT: f64 = 78.0;
const RIGHT: f64 = 24.0;
const TOP: f64 = 108.0;
const BOTTOM: f64 = 64.0;
const GAP: f64 = 26.0;
const TICK: f64 = 5.0;
const MARK: f64 = 4.0;

/// Told apart in grey and by those who see few colours, too: each line has its own mark.
const STYLES: [(&str, Mark); 4] = [
    ("#c44e00", Mark::Circle),
    ("#0067a5", Mark::Square),
    ("#00805e", Mark::Triangle),
    ("#7b3294", Mark::Diamond),
];

#[derive(Clone, Copy)]
enum Mark {
    Circle,
    Square,
    Triangle,
    Diamond,
}

/// One axis: from the least to the most, by factors.
#[derive(Clone, Copy)]
struct Axis {
    least: f64,
    most: f64,
    from: f64,
    to: f64,
}

impl Axis {
    fn at(self, value: f64) -> f64 {
        let part = (value / self.least).ln() / (self.most / self.least).ln();
        self.from + part * (self.to - self.from)
    }
}

/// The whole file. The same panels give the same text.
pub fn picture(title: &str, across: &str, panels: &[Panel]) -> String {
    let mut svg = String::new();
    let all = || panels.iter().flat_map(|panel| &panel.lines);
    let slots: Vec<f64> = all()
        .flat_map(|line| line.points.iter().map(|&(slots, _)| slots as f64))
        .collect();
    let seconds: Vec<f64> = all()
        .flat_map(|line| line.points.iter().map(|&(_, seconds)| seconds))
        .collect();
    let decades = decades(&seconds);
    put(
        &mut svg,
        &format!(
            r##"<svg xmlns="http://www.w3.org/2000/svg" width="{WIDTH}" height="{HEIGHT}" viewBox="0 0 {WIDTH} {HEIGHT}" font-family="Helvetica, Arial, sans-serif" font-size="13" fill="#222222">"##
        ),
    );
    put(
        &mut svg,
        r##"<rect width="100%" height="100%" fill="#ffffff"/>"##,
    );
    let heading = r#"font-size="18" font-weight="bold" text-anchor="start""#;
    text(&mut svg, LEFT, 34.0, heading, title);
    if let Some(panel) = panels.first() {
        legend(&mut svg, &panel.lines);
    }
    let room = WIDTH - LEFT - RIGHT - GAP * (panels.len() as f64 - 1.0);
    let width = room / panels.len() as f64;
    for (number, panel) in panels.iter().enumerate() {
        let from = LEFT + number as f64 * (width + GAP);
        let x = Axis {
            least: least(&slots),
            most: most(&slots),
            from: from + 14.0,
            to: from + width - 14.0,
        };
        let y = Axis {
            least: decades[0],
            most: decades[decades.len() - 1],
            from: HEIGHT - BOTTOM,
            to: TOP,
        };
        frame(&mut svg, from, width, panel);
        across_axis(&mut svg, x, &slots);
        up_axis(&mut svg, y, from, width, &decades, number == 0);
        for (line, style) in panel.lines.iter().zip(STYLES) {
            draw(&mut svg, line, style, x, y);
        }
    }
    let middle = r#"text-anchor="middle""#;
    let centre = LEFT + (WIDTH - LEFT - RIGHT) / 2.0;
    text(&mut svg, centre, HEIGHT - 16.0, middle, across);
    put(&mut svg, "</svg>");
    svg
}

/// Powers of ten around all of these.
fn decades(seconds: &[f64]) -> Vec<f64> {
    let lowest = least(seconds).log10().floor() as i32;
    let highest = (most(seconds).log10().ceil() as i32).max(lowest + 1);
    (lowest..=highest).map(|power| 10f64.powi(power)).collect()
}

fn least(values: &[f64]) -> f64 {
    values.iter().copied().fold(f64::INFINITY, f64::min)
}

fn most(values: &[f64]) -> f64 {
    values.iter().copied().fold(0.0, f64::max)
}

// ---- parts ----

fn legend(svg: &mut String, lines: &[Line]) {
    let mut at = LEFT;
    for (line, style) in lines.iter().zip(STYLES) {
        let (colour, _) = style;
        let y = 60.0;
        stroke(svg, colour, "2.2", &[(at, y), (at + 30.0, y)]);
        mark(svg, style, at + 15.0, y);
        text(svg, at + 38.0, y + 4.5, r#"text-anchor="start""#, line.name);
        // A letter of this size is about seven wide.
        at += 38.0 + 7.0 * line.name.len() as f64 + 26.0;
    }
}

fn frame(svg: &mut String, from: f64, width: f64, panel: &Panel) {
    let height = HEIGHT - BOTTOM - TOP;
    let rect = format!(
        r##"<rect x="{from:.1}" y="{TOP:.1}" width="{width:.1}" height="{height:.1}" fill="#fafafa" stroke="#888888"/>"##
    );
    put(svg, &rect);
    let bold = r#"font-weight="bold" text-anchor="middle""#;
    text(svg, from + width / 2.0, TOP - 10.0, bold, &panel.title);
}

/// A tick at each number of slots, and every second one has its number.
fn across_axis(svg: &mut String, x: Axis, slots: &[f64]) {
    let mut ticks = slots.to_vec();
    ticks.sort_by(f64::total_cmp);
    ticks.dedup();
    let bottom = HEIGHT - BOTTOM;
    for (number, &tick) in ticks.iter().enumerate() {
        let at = x.at(tick);
        stroke(svg, "#e2e2e2", "1", &[(at, TOP + 1.0), (at, bottom - 1.0)]);
        stroke(svg, "#888888", "1", &[(at, bottom), (at, bottom + TICK)]);
        if number % 2 == 0 {
            let middle = r#"font-size="12" text-anchor="middle""#;
            text(svg, at, bottom + 19.0, middle, &with_commas(tick as usize));
        }
    }
}

/// A line at each power of ten; the first panel has the times beside them.
fn up_axis(svg: &mut String, y: Axis, from: f64, width: f64, decades: &[f64], labelled: bool) {
    for &decade in decades {
        let at = y.at(decade);
        if at > TOP + 1.0 && at < HEIGHT - BOTTOM - 1.0 {
            stroke(
                svg,
                "#cfcfcf",
                "1",
                &[(from + 1.0, at), (from + width - 1.0, at)],
            );
        }
        if labelled {
            stroke(svg, "#888888", "1", &[(from - TICK, at), (from, at)]);
            let end = r#"font-size="12" text-anchor="end""#;
            text(svg, from - TICK - 5.0, at + 4.0, end, &time(decade));
        }
    }
}

fn draw(svg: &mut String, line: &Line, style: (&str, Mark), x: Axis, y: Axis) {
    let (colour, _) = style;
    let points: Vec<(f64, f64)> = line
        .points
        .iter()
        .map(|&(slots, seconds)| (x.at(slots as f64), y.at(seconds)))
        .collect();
    stroke(svg, colour, "2.2", &points);
    for &(x, y) in &points {
        mark(svg, style, x, y);
    }
}

/// A power of ten of seconds, as a person says it.
fn time(seconds: f64) -> String {
    let power = seconds.log10().round() as i32;
    match power {
        0.. => format!("{} s", 10u64.pow(power as u32)),
        -1 => "0.1 s".to_string(),
        -3 | -2 => format!("{} ms", 10u64.pow((power + 3) as u32)),
        _ => format!("{:.*} ms", (-3 - power) as usize, seconds * 1e3),
    }
}

/// 65536 as 65,536.
pub fn with_commas(number: usize) -> String {
    let digits = number.to_string();
    let mut written = String::new();
    for (place, digit) in digits.chars().enumerate() {
        if place > 0 && (digits.len() - place) % 3 == 0 {
            written.push(',');
        }
        written.push(digit);
    }
    written
}

// ---- what SVG is made of ----

fn put(svg: &mut String, element: &str) {
    svg.push_str(element);
    svg.push('\n');
}

fn text(svg: &mut String, x: f64, y: f64, how: &str, words: &str) {
    let words = words.replace('&', "&amp;").replace('<', "&lt;");
    put(
        svg,
        &format!(r#"<text x="{x:.1}" y="{y:.1}" {how}>{words}</text>"#),
    );
}

fn stroke(svg: &mut String, colour: &str, width: &str, points: &[(f64, f64)]) {
    let mut through = String::new();
    for (x, y) in points {
        let space = if through.is_empty() { "" } else { " " };
        // Writing to a text in memory does not fail.
        let _ = write!(through, "{space}{x:.1},{y:.1}");
    }
    put(
        svg,
        &format!(
            r#"<polyline points="{through}" fill="none" stroke="{colour}" stroke-width="{width}"/>"#
        ),
    );
}

fn mark(svg: &mut String, (colour, mark): (&str, Mark), x: f64, y: f64) {
    let corners = |corners: &[(f64, f64)]| {
        let points: Vec<String> = corners
            .iter()
            .map(|(dx, dy)| format!("{:.1},{:.1}", x + MARK * dx, y + MARK * dy))
            .collect();
        format!(
            r#"<polygon points="{}" fill="{colour}"/>"#,
            points.join(" ")
        )
    };
    let shape = match mark {
        Mark::Circle => {
            format!(r#"<circle cx="{x:.1}" cy="{y:.1}" r="{MARK:.1}" fill="{colour}"/>"#)
        }
        Mark::Square => corners(&[(-0.9, -0.9), (0.9, -0.9), (0.9, 0.9), (-0.9, 0.9)]),
        Mark::Triangle => corners(&[(0.0, -1.2), (1.1, 0.9), (-1.1, 0.9)]),
        Mark::Diamond => corners(&[(0.0, -1.3), (1.3, 0.0), (0.0, 1.3), (-1.3, 0.0)]),
    };
    put(svg, &shape);
}

#[cfg(test)]
mod tests {
    use super::*;

    fn panels() -> Vec<Panel> {
        let line = |name, factor: f64| Line {
            name,
            points: [1024, 2048, 4096, 8192]
                .map(|slots| (slots, factor * slots as f64))
                .to_vec(),
        };
        let panel = |title: &str| Panel {
            title: title.to_string(),
            lines: vec![line("one way", 1e-6), line("another", 3e-6)],
        };
        vec![panel("SC"), panel("TSO")]
    }

    fn drawn() -> String {
        picture("A title", "slots", &panels())
    }

    #[test]
    fn all_that_is_named_is_there() {
        let svg = drawn();
        for words in [
            "A title", "slots", "SC", "TSO", "one way", "another", "1,024", "4,096", "1 ms",
            "10 ms", "0.1 s",
        ] {
            assert!(svg.contains(&format!(">{words}</text>")), "{words}");
        }
        assert!(!svg.contains("script"));
    }

    #[test]
    fn the_same_panels_give_the_same_text() {
        assert_eq!(drawn(), drawn());
    }

    #[test]
    fn every_element_ends_and_every_point_is_inside() {
        let svg = drawn();
        assert!(svg.starts_with("<svg ") && svg.ends_with("</svg>\n"));
        for line in svg.lines().skip(1) {
            assert!(line.ends_with("/>") || line.ends_with("</text>") || line == "</svg>");
        }
        let numbers = svg.split("points=\"").skip(1).flat_map(|rest| {
            let points = rest.split('"').next().unwrap_or("");
            points.split(' ').map(|point| {
                let (x, y) = point.split_once(',').expect("a point is a pair");
                (x.parse::<f64>().unwrap(), y.parse::<f64>().unwrap())
            })
        });
        for (x, y) in numbers {
            assert!((0.0..=WIDTH).contains(&x) && (0.0..=HEIGHT).contains(&y));
        }
    }

    #[test]
    fn ten_times_is_the_same_way_up_everywhere() {
        let y = Axis {
            least: 1e-3,
            most: 1.0,
            from: 300.0,
            to: 0.0,
        };
        for (value, expected) in [(1e-3, 300.0), (1e-2, 200.0), (0.1, 100.0), (1.0, 0.0)] {
            assert!((y.at(value) - expected).abs() < 1e-9);
        }
    }

    #[test]
    fn numbers_and_times_as_a_person_writes_them() {
        let numbers = [7, 640, 1024, 65_536, 1_000_000].map(with_commas);
        assert_eq!(numbers, ["7", "640", "1,024", "65,536", "1,000,000"]);
        let times = [1e-5, 1e-4, 1e-3, 1e-2, 0.1, 1.0, 10.0].map(time);
        let expected = ["0.01 ms", "0.1 ms", "1 ms", "10 ms", "0.1 s", "1 s", "10 s"];
        assert_eq!(times, expected);
    }
}
