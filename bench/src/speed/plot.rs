//! The times of every file in four panels, as SVG.

use super::scale::Scale;
use super::svg::{Anchor, Point, Svg};
use super::{DirectionTimes, StoredFile, Timed, Who};
use bench::timing::ROUNDS;

/// How one is drawn: the words of the legend, the outline around its point, the colour.
struct Mark {
    who: Who,
    words: &'static str,
    outline: &'static str,
    colour: &'static str,
}

/// In the order of drawing, the largest first: where all fall together, each still shows.
const MARKS: [Mark; 5] = [
    Mark {
        who: Who::Memcpy,
        words: "memcpy of the pages",
        outline: "M-0.5-8H0.5V8H-0.5z",
        colour: "#222222",
    },
    Mark {
        who: Who::Libspectrum,
        words: "libspectrum",
        outline: "M0-7L6.5 5H-6.5z",
        colour: "#ffffff",
    },
    Mark {
        who: Who::Ordinary,
        words: "ordinary Rust",
        outline: "M-6-6H6V6H-6z",
        colour: "#f2b84b",
    },
    Mark {
        who: Who::Wordwise,
        words: "word-wise Rust",
        outline: "M0-6.5L6.5 0L0 6.5L-6.5 0z",
        colour: "#4fa3a5",
    },
    Mark {
        who: Who::Library,
        words: "library",
        outline: "M-3.5 0a3.5 3.5 0 1 0 7 0a3.5 3.5 0 1 0-7 0z",
        colour: "#10245c",
    },
];

const DRAWING_SIZE: Point = (1000.0, 736.0);

/// The left upper corner of each panel's axes, and their size.
const PANELS: [Point; 4] = [
    (112.0, 122.0),
    (612.0, 122.0),
    (112.0, 438.0),
    (612.0, 438.0),
];
const SIZE: Point = (368.0, 230.0);

const GRID: &str = "#dddddd";

pub fn draw(files: &[StoredFile], measured: [&DirectionTimes; 4]) -> String {
    let timed = || measured.iter().flat_map(|way| &way.each).flatten();
    let times: Vec<f64> = timed().flat_map(drawn).map(|(_, time)| time).collect();
    let scale = Scale::over(&times);
    let mut svg = Svg::new(DRAWING_SIZE);
    let title = format!(
        "Time for each of ten 128K files<tspan dx=\"18\" font-size=\"13\">medians of {ROUNDS} \
         interleaved runs; the files were written by libspectrum</tspan>"
    );
    svg.text((20.0, 34.0), Anchor::Start, 20, &title);
    legend(&mut svg, |who| {
        timed().any(|each| each.micros(who).is_some())
    });
    for (way, corner) in measured.into_iter().zip(PANELS) {
        axes(&mut svg, corner, way, &scale);
        rows(&mut svg, corner, way, files, &scale);
    }
    svg.finish()
}

/// The times that are drawn, with their marks.
fn drawn(timed: &Timed) -> impl Iterator<Item = (&'static Mark, f64)> + '_ {
    let time = |mark: &'static Mark| Some((mark, timed.micros(mark.who)?));
    MARKS.iter().filter_map(time)
}

/// The marks and their words in one line, the library first.
fn legend(svg: &mut Svg, is_drawn: impl Fn(Who) -> bool) {
    let (mut x, y) = (28.0, 66.0);
    for mark in MARKS.iter().rev().filter(|mark| is_drawn(mark.who)) {
        svg.define(mark.who.name(), mark.outline, mark.colour);
        svg.place(mark.who.name(), (x, y));
        svg.text((x + 13.0, y + 4.5), Anchor::Start, 14, mark.words);
        x += 60.0 + 7.5 * mark.words.len() as f64;
    }
}

/// A panel's title, and the axis of the times with its grid.
fn axes(svg: &mut Svg, (left, top): Point, way: &DirectionTimes, scale: &Scale) {
    let (width, bottom) = (SIZE.0, top + SIZE.1);
    let title = format!(
        "<tspan font-weight=\"bold\">{}</tspan>: {}",
        way.direction.name, way.direction.what
    );
    svg.text((left, top - 12.0), Anchor::Start, 15, &title);
    for step in &scale.steps {
        let x = left + width * scale.place(*step);
        svg.line((x, top), (x, bottom), GRID);
        svg.text((x, bottom + 16.0), Anchor::Middle, 12, &step.to_string());
    }
    let label = "microseconds per file, logarithmic (left is faster)";
    svg.text(
        (left + width / 2.0, bottom + 36.0),
        Anchor::Middle,
        13,
        label,
    );
}

/// A row for each file, with the marks of its times.
fn rows(
    svg: &mut Svg,
    (left, top): Point,
    way: &DirectionTimes,
    files: &[StoredFile],
    scale: &Scale,
) {
    let height = SIZE.1 / files.len() as f64;
    for (row, (stored, timed)) in files.iter().zip(&way.each).enumerate() {
        let y = top + height * (row as f64 + 0.5);
        let name = stored.name.trim_start_matches("128k-");
        svg.text((left - 12.0, y + 4.5), Anchor::End, 13, name);
        let Some(timed) = timed else {
            let nothing = format!("nothing to {}", way.direction.name);
            svg.text((left + 8.0, y + 4.5), Anchor::Start, 12, &nothing);
            continue;
        };
        svg.line((left, y), (left + SIZE.0, y), GRID);
        for (mark, time) in drawn(timed) {
            let x = left + SIZE.0 * scale.place(time);
            svg.place(mark.who.name(), (x, y));
        }
    }
}
