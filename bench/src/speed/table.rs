//! Measures two directions over the files and prints a line for each file and one for all.

use super::{Direction, DirectionTimes, StoredFile, Timed, Who};
use reference::memory::Rng;

/// Who all ratios are to.
const ANCHOR: Who = Who::Wordwise;

pub fn measure(
    directions: [Direction; 2],
    shown: &[Who],
    files: &[StoredFile],
    rng: &mut Rng,
) -> [DirectionTimes; 2] {
    let mut measured = directions.map(DirectionTimes::of);
    head(&measured, shown);
    for stored in files {
        let one = std::slice::from_ref(stored);
        for way in &mut measured {
            way.each.push((way.direction.time)(one, rng));
        }
        let last = |way: &DirectionTimes| columns(way.each.last().and_then(Option::as_ref), shown);
        line(&stored.name, measured.each_ref().map(last));
    }
    for way in &mut measured {
        way.all = (way.direction.time)(files, rng);
    }
    let all = |way: &DirectionTimes| columns(way.all.as_ref(), shown);
    line("all ten", measured.each_ref().map(all));
    measured
}

fn head(measured: &[DirectionTimes; 2], shown: &[Who]) {
    let heads = measured.each_ref().map(|way| {
        let names = shown.iter().map(|who| format!(" {:>11}", who.name()));
        format!("{:>9} us{}", way.direction.name, names.collect::<String>())
    });
    line("", heads);
}

/// The microseconds of the library, then the ratios; a dash where nothing was timed.
fn columns(timed: Option<&Timed>, shown: &[Who]) -> String {
    let show = |value: Option<f64>, digits| value.map_or("-".into(), |v| format!("{v:.digits$}"));
    let library = show(timed.and_then(|t| t.micros(Who::Library)), 1);
    let ratio = |who: &Who| timed.and_then(|t| t.ratio(*who, ANCHOR));
    let ratios = shown
        .iter()
        .map(|who| format!(" {:>11}", show(ratio(who), 2)));
    format!("{library:>12}{}", ratios.collect::<String>())
}

fn line(name: &str, [left, right]: [String; 2]) {
    println!("{name:<16} {left}   {right}");
}

/// What a byte of memory costs over all files, beside the floor.
pub fn costs(measured: &[DirectionTimes; 2]) {
    const SHOWN: [Who; 3] = [Who::Library, Who::Memcpy, Who::Memset];
    let names = SHOWN.map(|who| format!(" {:>11}", who.name()));
    println!("{:<16}{}", "", names.concat());
    for way in measured {
        let cost = |who| way.all.as_ref().and_then(|t| t.nanos_per_byte(who));
        let costs = SHOWN.map(|who| format!(" {:>11.4}", cost(who).unwrap_or(f64::NAN)));
        println!("{:<16}{}", way.direction.name, costs.concat());
    }
}
