//! `meter chart`: a picture of an image.

mod svg;

use crate::cli::{usage, Arguments, Outcome};
use crate::files;
use crate::image;
use crate::layout::{self, bits, Counter, Use, LEVELS};
use meter::Meter;
use std::ffi::{OsStr, OsString};
use svg::{Anchor, Font, Svg};

pub const HELP: &str = "\
Draws an image as SVG: rows as strips, counters by level, a legend.

usage: meter chart [IMAGE] -o FILE.svg

A file left out or - is standard input; -o - is standard output.

A strip is one row from slot 0 on. Height and hue of a counter are its level,
lightness its figure: the darker, the larger within what the level can hold. Of
rows wider than 512 slots each column shows several slots: the widest counter's
level, the largest figure at that level, and in a band below how many of the
slots are in use.
";

pub fn run(given: &[OsString]) -> Outcome {
    let arguments = Arguments::parse(given, &[("-o", 1)])?;
    let output = arguments.needed_output()?;
    let file = arguments.file()?;
    if file == output && file != "-" {
        return usage("the picture would take the image's place");
    }
    let meter = image::load(file)?;
    let widest = image::expect(meter.widest())?;
    files::write(output, draw(&title(file), &meter, widest.into()).as_bytes())
}

/// The file's own name, its end if it is long.
fn title(file: &OsStr) -> String {
    const ROOM: usize = 70;
    let name = files::name(file);
    let name = name.rsplit('/').next().unwrap_or_default();
    let length = name.chars().count();
    if length <= ROOM {
        return name.to_string();
    }
    let end: String = name.chars().skip(length - ROOM).collect();
    format!("\u{2026}{end}")
}

// The picture's measures. A strip has a column of two pixels or more for every slot or for several.
const WIDTH: usize = 1280;
const LEFT: usize = 84;
const STRIP: usize = 1024;
const COLUMNS: usize = 512;
const ROW: usize = 46;
const GAP: usize = 18;
const TOP: usize = 128;
/// The band under a strip whose columns show several slots: its height, and the space above it.
const BAND: usize = 6;
const ABOVE_BAND: usize = 2;

const LINE: &str = "#c9d1d9";
const CLEAR: [u8; 3] = [0xe9, 0xed, 0xf1];
const FULL: [u8; 3] = [0x33, 0x3f, 0x4b];

const LABEL: Font = Font {
    size: 15,
    fill: "#1c2733",
    bold: false,
    anchor: Anchor::Start,
};
const TITLE: Font = Font {
    size: 24,
    bold: true,
    ..LABEL
};
const HEAD: Font = Font {
    size: 17,
    bold: true,
    ..LABEL
};
const LEAD: Font = Font { size: 16, ..LABEL };
const NUMBER: Font = Font { size: 14, ..LABEL };
const NOTE: Font = Font {
    size: 13,
    fill: "#5b6876",
    ..LABEL
};

/// From light to dark, by level: blue, green, orange, purple, apart for every kind of colour vision, as the heights are.
const SHADES: [([u8; 3], [u8; 3]); LEVELS] = [
    ([0xb9, 0xda, 0xf2], [0x0b, 0x5c, 0x99]),
    ([0xa9, 0xe0, 0xc9], [0x00, 0x66, 0x49]),
    ([0xff, 0xdc, 0x99], [0xb8, 0x66, 0x00]),
    ([0xf0, 0xb8, 0xd8], [0x7d, 0x1f, 0x5c]),
];

/// The magnitudes that a level's counters have by themselves, as powers of two: below, its parts would do.
fn magnitudes(level: usize) -> (u32, u32) {
    let from = if level == 0 { 0 } else { bits(level - 1) };
    (from as u32, bits(level) as u32 - 1)
}

/// The shade of a figure at a level.
fn shade(level: usize, figure: u64) -> String {
    let (from, to) = magnitudes(level);
    let magnitude = figure.max(1).ilog2().clamp(from, to);
    blend(SHADES[level], magnitude - from, to - from)
}

/// The colour so far on the way from one to another.
fn blend((light, dark): ([u8; 3], [u8; 3]), part: u32, of: u32) -> String {
    let mut colour = String::from("#");
    for (light, dark) in light.into_iter().zip(dark) {
        let mixed = (u32::from(light) * (of - part) + u32::from(dark) * part) / of;
        colour.push_str(&format!("{mixed:02x}"));
    }
    colour
}

/// The height of a counter in its strip: 19 pixels at level 0, all at level 3.
fn height(level: usize) -> usize {
    ROW - (LEVELS - 1 - level) * 9
}

/// What one column of a strip shows: the widest counter's level, the largest figure at that level, and how many of its slots are in
/// counters that are in use.
#[derive(Clone, Copy, Default, PartialEq, Eq)]
struct Column {
    level: usize,
    figure: u64,
    used: usize,
}

fn columns(counters: &[Counter], w: usize) -> Vec<Column> {
    let n = w.min(COLUMNS);
    let slots = w / n;
    let mut columns = vec![Column::default(); n];
    for counter in counters {
        for slot in counter.slot..counter.slot + counter.slots() {
            let column = &mut columns[slot / slots];
            (column.level, column.figure) = (column.level, column.figure).max((counter.level, counter.figure));
            column.used += usize::from(counter.figure > 0);
        }
    }
    columns
}

fn draw(name: &str, meter: &Meter, widest: usize) -> String {
    let (d, w) = (meter.d(), meter.w());
    let in_use = layout::in_use(meter);
    let axis = TOP + d * (ROW + GAP);
    let panels = axis + 86;
    let mut svg = Svg::new(
        WIDTH,
        panels + 262,
        &format!("Traffic meter {name}: {d} rows of {w} slots, widest level {widest}"),
    );
    heading(&mut svg, name, meter, widest, &in_use);
    for row in 0..d {
        strip(&mut svg, meter, row, TOP + row * (ROW + GAP), in_use.rows[row].1);
    }
    slots_axis(&mut svg, w, axis);
    histogram(&mut svg, &in_use, panels);
    legend(&mut svg, panels, meter, &in_use);
    svg.finish()
}

fn heading(svg: &mut Svg, name: &str, meter: &Meter, widest: usize, in_use: &Use) {
    svg.text(LEFT, 46, TITLE, name);
    let used: u64 = in_use.used.iter().sum();
    let line = format!(
        "{} {} of {} slots \u{b7} widest level {widest} ({} bits) \u{b7} {} counters in use \u{b7} largest figure {}",
        meter.d(),
        if meter.d() == 1 { "row" } else { "rows" },
        thousands(meter.w() as u128),
        bits(widest),
        thousands(used.into()),
        thousands(in_use.largest.into())
    );
    svg.text(LEFT, 76, LEAD, &line);
    svg.text(LEFT + STRIP + 14, TOP - 10, NOTE, "row\u{2019}s total");
}

fn strip(svg: &mut Svg, meter: &Meter, row: usize, top: usize, total: u128) {
    let middle = top + ROW / 2 + 5;
    svg.text(LEFT - 12, middle, LABEL.anchored(Anchor::End), &format!("row {row}"));
    svg.text(LEFT + STRIP + 14, middle, LABEL, &short(total));
    svg.rect(LEFT, top, STRIP, ROW, &blend((CLEAR, FULL), 0, 1));
    let counters = layout::row(meter, row);
    if meter.w() > COLUMNS {
        return binned(svg, &columns(&counters, meter.w()), meter.w() / COLUMNS, row, top);
    }
    let pixels = STRIP / meter.w();
    // a line of the ground between counters, where there is room
    let between = usize::from(pixels >= 4);
    for c in counters.iter().filter(|c| c.level > 0 || c.figure > 0) {
        let figure = thousands(c.figure.into());
        let note = format!("row {row}, slot {}: level {}, figure {figure}", c.slot, c.level);
        let (x, tall) = (LEFT + c.slot * pixels, height(c.level));
        let width = c.slots() * pixels - between;
        svg.noted(x, top + ROW - tall, width, tall, &shade(c.level, c.figure), &note);
    }
}

/// A strip whose columns show so many slots each, and the band of how many of them are in use.
fn binned(svg: &mut Svg, columns: &[Column], slots: usize, row: usize, top: usize) {
    let pixels = STRIP / COLUMNS;
    for (i, c) in columns.iter().enumerate() {
        let x = LEFT + i * pixels;
        let used = (c.used * 16).div_ceil(slots) as u32;
        let band = top + ROW + ABOVE_BAND;
        svg.rect(x, band, pixels, BAND, &blend((CLEAR, FULL), used, 16));
        if c.level == 0 && c.figure == 0 {
            continue;
        }
        let (first, last, figure) = (i * slots, (i + 1) * slots - 1, thousands(c.figure.into()));
        let note = format!(
            "row {row}, slots {first} to {last}: level {}, up to {figure}, {} of {slots} in use",
            c.level, c.used
        );
        let tall = height(c.level);
        svg.noted(x, top + ROW - tall, pixels, tall, &shade(c.level, c.figure), &note);
    }
}

fn slots_axis(svg: &mut Svg, w: usize, y: usize) {
    for quarter in 0..=4 {
        let x = LEFT + STRIP * quarter / 4;
        svg.line(x, y - 8, x, y, NOTE.fill);
        let slot = thousands((w * quarter / 4) as u128);
        svg.text(x, y + 18, NUMBER.anchored(Anchor::Middle), &slot);
    }
    let note = match w / COLUMNS {
        0 | 1 => "slot".to_string(),
        n => format!(
            "slot \u{2014} a column is the widest of {n} slots\u{2019} counters and the largest figure at its level; the band below, how many are in use"
        ),
    };
    svg.text(LEFT + STRIP / 2, y + 40, NOTE.anchored(Anchor::Middle), &note);
}

/// Counters by level on a scale of powers of ten: all of them pale, those in use full.
fn histogram(svg: &mut Svg, in_use: &Use, top: usize) {
    const FROM: usize = LEFT + 62;
    const ROOM: usize = 330;
    const STEP: usize = 36;
    svg.text(LEFT, top, HEAD, "Counters by level");
    let most = in_use.counters.iter().copied().max().unwrap_or(0).max(10);
    let decades = (most as f64).log10().ceil();
    // one counter can be seen too
    let along = |n: u64| match n {
        0 => 0,
        n => ((n as f64).log10() / decades * (ROOM - 6) as f64) as usize + 6,
    };
    let bottom = top + 26 + LEVELS * STEP;
    // there are at most 8 * 16,384 counters
    for (power, label) in (0..=decades as u32).zip(["1", "10", "100", "1 k", "10 k", "100 k", "1 M"]) {
        let x = FROM + along(10u64.pow(power));
        svg.line(x, top + 18, x, bottom, LINE);
        svg.text(x, bottom + 18, NOTE.anchored(Anchor::Middle), label);
    }
    for (level, shades) in SHADES.into_iter().enumerate() {
        let y = top + 26 + level * STEP;
        let (counters, used) = (in_use.counters[level], in_use.used[level]);
        svg.text(FROM - 10, y + 19, LABEL.anchored(Anchor::End), &format!("level {level}"));
        svg.rect(FROM, y + 2, along(counters), 24, &blend(shades, 0, 1));
        svg.rect(FROM, y + 2, along(used), 24, &blend(shades, 3, 4));
        let label = match counters {
            0 => "none".to_string(),
            _ => format!("{} in use of {}", thousands(used.into()), thousands(counters.into())),
        };
        svg.text(FROM + ROOM + 14, y + 19, NUMBER, &label);
    }
    let note = "counters (each step is ten times as many)";
    svg.text(FROM + ROOM / 2, bottom + 40, NOTE.anchored(Anchor::Middle), note);
}

/// What height, hue and lightness mean, and the share of slots that each level has.
fn legend(svg: &mut Svg, top: usize, meter: &Meter, in_use: &Use) {
    const FROM: usize = 740;
    const RIGHT: usize = WIDTH - 36;
    const SCALE: usize = FROM + 134;
    const STEP: usize = 15;
    const AFTER: usize = SCALE + 8 * STEP + 12;
    svg.text(FROM, top, HEAD, "Level and figure");
    svg.text(RIGHT, top, NOTE.anchored(Anchor::End), "share of slots");
    let slots = (meter.d() * meter.w()) as u64;
    for (level, shades) in SHADES.into_iter().enumerate() {
        let bottom = top + 52 + level * 36;
        svg.text(FROM, bottom - 7, LABEL, &format!("level {level}, {} bits", bits(level)));
        let tall = height(level) * 5 / 8;
        for step in 0..8 {
            let colour = blend(shades, step as u32, 7);
            svg.rect(SCALE + step * STEP, bottom - tall, STEP, tall, &colour);
        }
        let (from, to) = magnitudes(level);
        let range = match level {
            3 => format!("{} and more", short(1 << from)),
            _ => format!("{} to {}", short(1 << from), short((1u128 << (to + 1)) - 1)),
        };
        svg.text(AFTER, bottom - 7, NUMBER, &range);
        let held = match level {
            0 => in_use.used[0],
            _ => in_use.counters[level] << level,
        };
        svg.text(RIGHT, bottom - 7, NUMBER.anchored(Anchor::End), &share(held, slots));
    }
    let y = top + 52 + LEVELS * 36;
    svg.text(FROM, y - 5, LABEL, "clear slot");
    svg.rect(SCALE, y - 18, 8 * STEP, 18, &blend((CLEAR, FULL), 0, 1));
    svg.text(AFTER, y - 5, NUMBER, "0");
    let clear = in_use.counters[0] - in_use.used[0];
    svg.text(RIGHT, y - 5, NUMBER.anchored(Anchor::End), &share(clear, slots));
    if meter.w() > COLUMNS {
        let y = y + 32;
        svg.text(FROM, y - 1, LABEL, "slots in use");
        for step in 0..8 {
            let colour = blend((CLEAR, FULL), step as u32, 7);
            svg.rect(SCALE + step * STEP, y - BAND - 3, STEP, BAND, &colour);
        }
        svg.text(AFTER, y - 1, NUMBER, "none to all");
    }
}

/// A share in percent with one digit behind the point; what is there is never 0.
fn share(part: u64, of: u64) -> String {
    let thousandths = (part * 1000 + of / 2) / of;
    if part > 0 && thousandths == 0 {
        return "< 0.1 %".to_string();
    }
    format!("{}.{} %", thousandths / 10, thousandths % 10)
}

/// A number with a comma after every third digit from the right.
fn thousands(n: u128) -> String {
    let digits = n.to_string();
    let mut text = String::new();
    for (i, digit) in digits.chars().enumerate() {
        if i > 0 && (digits.len() - i).is_multiple_of(3) {
            text.push(',');
        }
        text.push(digit);
    }
    text
}

/// A number in few characters: up to seven digits as they are, else rounded to one digit behind the point, with a prefix.
fn short(n: u128) -> String {
    if n < 10_000_000 {
        return thousands(n);
    }
    let mut unit = 1_000_000;
    let mut prefixes = ["M", "G", "T", "P", "E", "Z", "Y"].into_iter();
    let mut prefix = prefixes.next();
    // rounding may lead on to the next prefix
    while (n + unit / 20) / unit >= 1000 {
        let Some(next) = prefixes.next() else { break };
        prefix = Some(next);
        unit *= 1000;
    }
    let tenths = (n + unit / 20) / (unit / 10);
    format!("{}.{} {}", tenths / 10, tenths % 10, prefix.unwrap_or_default())
}

#[cfg(test)]
mod tests {
    use super::*;

    #[test]
    fn numbers() {
        assert_eq!(thousands(0), "0");
        assert_eq!(thousands(999), "999");
        assert_eq!(thousands(1_234_567), "1,234,567");
        assert_eq!(short(9_999_999), "9,999,999");
        assert_eq!(short(12_345_678), "12.3 M");
        assert_eq!(short(999_990_000), "1.0 G");
        assert_eq!(short(u128::from(u64::MAX)), "18.4 E");
        assert_eq!(share(0, 32), "0.0 %");
        assert_eq!(share(1, 16_384), "< 0.1 %");
        assert_eq!(share(32, 32), "100.0 %");
    }

    #[test]
    fn shades_go_from_light_to_dark() {
        assert_eq!(shade(0, 0), "#b9daf2");
        assert_eq!(shade(0, 1), "#b9daf2");
        assert_eq!(shade(0, 255), "#0b5c99");
        assert_eq!(shade(1, 256), "#a9e0c9");
        assert_eq!(shade(1, 65_535), "#006649");
        assert_eq!(shade(3, u64::MAX), "#7d1f5c");
    }

    #[test]
    fn columns_have_the_widest_counter() {
        let mut meter = Meter::new(1, 1024).unwrap();
        meter.update(b"a", 3).unwrap();
        meter.update(b"b", 70_000).unwrap();
        let columns = columns(&layout::row(&meter, 0), 1024);
        assert_eq!(columns.len(), 512);
        assert_eq!(columns.iter().filter(|c| c.level == 2 && c.figure == 70_000).count(), 2);
        assert_eq!(columns.iter().filter(|c| c.level == 0 && c.figure == 3).count(), 1);
    }
}
