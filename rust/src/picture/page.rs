//! A picture as a page for a browser, and as a drawing alone.

use std::fmt::Write;

use super::{Cell, Mark, Picture, Row, ends};
use crate::edit::Edit;

/// How many edits stand in one strip; a longer patch has several, one below the other.
const EDITS_OF_STRIP: usize = 8;

const ROW: usize = 36;
const CELL: usize = 28;
/// Between two columns, where the arrows are.
const GAP: usize = 44;
const HEAD: usize = 50;
/// The width of a letter.
const LETTER: usize = 8;

const STYLE: &str = "\
text { font: 13px ui-monospace, 'DejaVu Sans Mono', Menlo, Consolas, monospace; fill: #1a1a1a; }
.small { font-size: 11px; fill: #555; }
.middle { text-anchor: middle; }
.end { text-anchor: end; }
.bold { font-weight: bold; }
.cell rect, .key rect { fill: #fff; stroke: #999; stroke-width: 1; }
.nothing text { fill: #888; }
.live text { fill: #555; }
.source rect { fill: #fff3c4; stroke: #8a6d00; }
.arrived rect { fill: #d9f2d9; stroke: #1b6b1b; stroke-width: 2.5; }
.scratch rect { fill: #dcebfa; stroke: #1f5f99; stroke-width: 2; stroke-dasharray: 5 3; }
.saved rect { fill: #eadcf5; stroke: #6a2c91; stroke-width: 2; stroke-dasharray: 1 3; stroke-linecap: round; }
.waits { fill: #6a2c91; }
.arrow { fill: none; stroke: #1a1a1a; stroke-width: 1.5; }
.tip { fill: #1a1a1a; }
.wanted rect { fill: none; stroke: none; }
.line { stroke: #ddd; stroke-width: 1; }
";

const PAGE_STYLE: &str = "\
:root { color-scheme: light; }
body { margin: 2rem auto; max-width: 75rem; padding: 0 1rem; background: #fff; color: #1a1a1a;
  font: 16px/1.5 system-ui, 'Segoe UI', 'DejaVu Sans', sans-serif; }
h1 { font-size: 1.4rem; }
code { font-family: ui-monospace, 'DejaVu Sans Mono', Menlo, Consolas, monospace; }
svg { display: block; max-width: 100%; height: auto; margin: 1rem 0; break-inside: avoid; }
@media print {
  @page { size: A4 landscape; margin: 12mm; }
  body { margin: 0; max-width: none; padding: 0; font-size: 10pt; }
  * { -webkit-print-color-adjust: exact; print-color-adjust: exact; }
}
";

/// What the marks mean, each with what stands in its cell.
const KEYS: [(Mark, &str, &str); 6] = [
    (Mark::Source, "v0", "a value where the patch found it"),
    (Mark::Scratch, "v0", "a value on its way, in scratch"),
    (Mark::Arrived, "v0", "a value in its destination"),
    (Mark::Saved, "(r0)", "saved: what a register held"),
    (Mark::Live, "(r0)", "live: what it held before"),
    (Mark::Nothing, "-", "nothing that is needed"),
];

impl Picture {
    /// A page that is read in a browser or printed. It needs nothing but itself.
    #[must_use]
    pub fn page(&self) -> String {
        let title = escaped(&self.title());
        let mut page = format!(
            "<!DOCTYPE html>\n<html lang=\"en\">\n<head>\n<meta charset=\"utf-8\">\n\
             <meta name=\"viewport\" content=\"width=device-width\">\n\
             <title>{title}</title>\n<style>\n{PAGE_STYLE}{STYLE}</style>\n</head>\n<body>\n\
             <h1>{title}</h1>\n<p>All at once:"
        );
        for (index, entry) in self.entries.iter().enumerate() {
            let comma = if index == 0 { "" } else { "," };
            let _ = write!(page, "{comma} <code>{}</code>", escaped(entry));
        }
        page += ". Each column is a stop: what the places hold after the edit above it. An \
                 arrow goes from the place that the edit reads to the one that it writes.</p>\n";
        for strip in self.strips() {
            page += &self.strip(&strip).svg(None);
        }
        if !self.quiet.is_empty() {
            let names = escaped(&self.quiet.join(" "));
            let _ = writeln!(
                page,
                "<p>Live or free, and untouched: <code>{names}</code>.</p>"
            );
        }
        page += &legend().svg(None);
        page += "</body>\n</html>\n";
        page
    }

    /// The drawing alone, for a page of another's.
    #[must_use]
    pub fn drawing(&self) -> String {
        let strips = self.strips().into_iter().map(|strip| self.strip(&strip));
        let drawings: Vec<Drawing> = strips.chain([legend()]).collect();
        let width = drawings.iter().map(|drawing| drawing.width).max();
        let width = width.unwrap_or(0);
        let height: usize = drawings.iter().map(|drawing| drawing.height + 16).sum();
        let title = escaped(&self.title());
        let mut svg = format!(
            "<svg xmlns=\"http://www.w3.org/2000/svg\" width=\"{width}\" height=\"{height}\" \
             viewBox=\"0 0 {width} {height}\" role=\"img\">\n<title>{title}</title>\n\
             <style>\n{STYLE}</style>\n<rect width=\"{width}\" height=\"{height}\" fill=\"#fff\"/>\n"
        );
        let mut top = 0;
        for drawing in drawings {
            svg += &drawing.svg(Some(top));
            top += drawing.height + 16;
        }
        svg += "</svg>\n";
        svg
    }

    /// The stops of each strip; the last of one is the first of the next.
    fn strips(&self) -> Vec<Vec<usize>> {
        let last = self.edits.len();
        let starts = (0..last.max(1)).step_by(EDITS_OF_STRIP);
        starts
            .map(|start| (start..=last.min(start + EDITS_OF_STRIP)).collect())
            .collect()
    }

    fn strip(&self, stops: &[usize]) -> Drawing {
        let layout = Layout::of(self);
        let is_last = stops.last() == Some(&self.edits.len());
        let mut text = String::new();
        for (index, row) in self.rows.iter().enumerate() {
            layout.put_label(&mut text, index, row);
        }
        for (column, &stop) in stops.iter().enumerate() {
            self.put_head(&mut text, &layout, column, stop);
            for (index, row) in self.rows.iter().enumerate() {
                layout.put_cell(&mut text, column, index, stop, row);
            }
            if column > 0 {
                self.put_arrow(&mut text, &layout, column, self.edits[stop - 1]);
            }
        }
        let mut width = layout.left(stops.len());
        if is_last {
            width = layout.put_wanted(&mut text, stops.len(), &self.rows);
        }
        Drawing {
            width,
            height: HEAD + ROW * self.rows.len(),
            text,
        }
    }

    /// What stands above a column.
    fn put_head(&self, text: &mut String, layout: &Layout, column: usize, stop: usize) {
        let middle = layout.left(column) + layout.cell / 2;
        let what = match stop.checked_sub(1) {
            None => "before".to_owned(),
            Some(index) => self.edits[index].to_string(),
        };
        let _ = writeln!(
            text,
            "<text class=\"small middle\" x=\"{middle}\" y=\"16\">{stop}</text>\
             <text class=\"bold middle\" x=\"{middle}\" y=\"36\">{what}</text>"
        );
    }

    /// The arrow of the edit above a column.
    fn put_arrow(&self, text: &mut String, layout: &Layout, column: usize, edit: Edit) {
        let (to, from) = ends(edit);
        let row = |place| self.rows.iter().position(|row| row.place == place);
        let middle = |row: usize| HEAD + ROW * row + ROW / 2;
        let Some(end) = row(to).map(middle) else {
            return;
        };
        let right = layout.left(column);
        let tip = right - 1;
        match from.and_then(row).map(middle) {
            Some(start) => {
                let left = right - GAP;
                let (one, other) = (left + GAP / 2, right - GAP / 2);
                let _ = write!(
                    text,
                    "<path class=\"arrow\" d=\"M{left} {start} C{one} {start} {other} {end} {} {end}\"/>",
                    right - 7
                );
            }
            None => {
                let at = right - GAP / 2;
                let _ = write!(
                    text,
                    "<text class=\"small middle\" x=\"{at}\" y=\"{}\">made</text>\
                     <path class=\"arrow\" d=\"M{} {end} L{} {end}\"/>",
                    end - 8,
                    at - 10,
                    right - 7
                );
            }
        }
        let _ = writeln!(
            text,
            "<path class=\"tip\" d=\"M{tip} {end} l-8 -4 l0 8 z\"/>"
        );
    }
}

/// Where things stand.
struct Layout {
    /// How wide the places are.
    label: usize,
    /// How wide a cell is.
    cell: usize,
}

impl Layout {
    fn of(picture: &Picture) -> Self {
        let letters = |text: &str| text.chars().count() * LETTER;
        let labels = picture.rows.iter().map(|row| {
            let place = letters(&row.place.to_string());
            place.max(letters(&row.about))
        });
        let cells = picture.rows.iter().flat_map(|row| &row.cells);
        let cells = cells.map(|cell| letters(&cell.holds) + 36);
        let heads = picture.edits.iter().map(|edit| letters(&edit.to_string()));
        let heads = heads.map(|head| head.saturating_sub(GAP / 2));
        Layout {
            label: labels.max().unwrap_or(0) + 16,
            cell: cells.chain(heads).max().unwrap_or(0).max(72),
        }
    }

    /// Where a column begins.
    fn left(&self, column: usize) -> usize {
        self.label + column * (self.cell + GAP)
    }

    fn put_label(&self, text: &mut String, index: usize, row: &Row) {
        let (right, top) = (self.label - 10, HEAD + ROW * index);
        let (place, about) = (row.place, &row.about);
        let _ = match about.is_empty() {
            true => writeln!(
                text,
                "<text class=\"bold end\" x=\"{right}\" y=\"{}\">{place}</text>",
                top + 22
            ),
            false => writeln!(
                text,
                "<text class=\"bold end\" x=\"{right}\" y=\"{}\">{place}</text>\
                 <text class=\"small end\" x=\"{right}\" y=\"{}\">{about}</text>",
                top + 16,
                top + 30
            ),
        };
    }

    fn put_cell(&self, text: &mut String, column: usize, index: usize, stop: usize, row: &Row) {
        let (left, top) = (self.left(column), HEAD + ROW * index + (ROW - CELL) / 2);
        let cell = &row.cells[stop];
        let attributes = format!("data-place=\"{}\" data-stop=\"{stop}\"", row.place);
        put_box(text, cell, left, top, self.cell, &attributes);
    }

    /// What the places have to hold, and what became of them: how wide all is then.
    fn put_wanted(&self, text: &mut String, column: usize, rows: &[Row]) -> usize {
        let left = self.left(column);
        let middle = left + self.cell / 2;
        let _ = writeln!(
            text,
            "<path class=\"line\" d=\"M{} 8 V{}\"/><text class=\"bold middle\" x=\"{middle}\" \
             y=\"36\">wanted</text>",
            left - GAP / 2,
            HEAD + ROW * rows.len()
        );
        let mut right = 0;
        for (index, row) in rows.iter().enumerate() {
            let base = HEAD + ROW * index + 22;
            let (place, wanted, fate) = (row.place, &row.wanted, &row.fate);
            let _ = writeln!(
                text,
                "<text class=\"wanted middle\" data-place=\"{place}\" x=\"{middle}\" \
                 y=\"{base}\">{wanted}</text><text class=\"small\" x=\"{}\" y=\"{base}\">{fate}</text>",
                left + self.cell + 8
            );
            right = right.max(left + self.cell + 16 + fate.len() * LETTER);
        }
        right
    }
}

/// A cell of a picture.
fn put_box(
    text: &mut String,
    cell: &Cell,
    left: usize,
    top: usize,
    width: usize,
    attributes: &str,
) {
    let written = if cell.written { " written" } else { "" };
    let mark = class(cell.mark);
    let (middle, base) = (left + width / 2, top + 19);
    let _ = write!(
        text,
        "<g class=\"cell {mark}{written}\" {attributes}><rect x=\"{left}\" y=\"{top}\" \
         width=\"{width}\" height=\"{CELL}\" rx=\"4\"/><text class=\"middle\" x=\"{middle}\" \
         y=\"{base}\">{}</text>",
        cell.holds
    );
    if cell.mark == Mark::Arrived {
        let _ = write!(
            text,
            "<path class=\"arrow\" d=\"M{} {} l3 4 l6 -9\"/>",
            left + width - 16,
            top + 14
        );
    }
    if cell.waiting {
        let _ = write!(
            text,
            "<path class=\"waits\" d=\"M{left} {top} h11 l-11 11 z\"><title>saved</title></path>"
        );
    }
    *text += "</g>\n";
}

fn class(mark: Mark) -> &'static str {
    match mark {
        Mark::Nothing => "nothing",
        Mark::Live => "live",
        Mark::Source => "source",
        Mark::Arrived => "arrived",
        Mark::Scratch => "scratch",
        Mark::Saved => "saved",
    }
}

/// What the marks mean.
fn legend() -> Drawing {
    let (mut text, wide, high) = (String::new(), 360, ROW);
    let waits = (Mark::Live, "(r0)", "a register that is saved now");
    let keys = KEYS.into_iter().chain([waits]);
    for (index, (mark, holds, words)) in keys.enumerate() {
        let (left, top) = (8 + index % 3 * wide, 4 + index / 3 * high);
        let cell = Cell {
            holds: holds.to_owned(),
            mark,
            written: false,
            waiting: index == KEYS.len(),
        };
        let mut key = String::new();
        put_box(&mut key, &cell, left, top, 64, "aria-hidden=\"true\"");
        text += &key.replace("class=\"cell ", "class=\"key ");
        let _ = writeln!(
            text,
            "<text class=\"small\" x=\"{}\" y=\"{}\">{words}</text>",
            left + 74,
            top + 18
        );
    }
    Drawing {
        width: 3 * wide,
        height: 8 + 3 * high,
        text,
    }
}

/// A part of a page.
struct Drawing {
    width: usize,
    height: usize,
    text: String,
}

impl Drawing {
    /// As it stands in a page, or so far down in a drawing.
    fn svg(&self, top: Option<usize>) -> String {
        let Drawing {
            width,
            height,
            text,
        } = self;
        let place = match top {
            None => "xmlns=\"http://www.w3.org/2000/svg\"".to_owned(),
            Some(top) => format!("y=\"{top}\""),
        };
        format!(
            "<svg {place} width=\"{width}\" height=\"{height}\" viewBox=\"0 0 {width} {height}\">\n\
             {text}</svg>\n"
        )
    }
}

/// Text as a page has it.
fn escaped(text: &str) -> String {
    let text = text.replace('&', "&amp;");
    text.replace('<', "&lt;").replace('>', "&gt;")
}
