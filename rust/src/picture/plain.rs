//! A picture as text for a terminal.

use std::fmt;

use super::{Cell, Mark, Picture};

/// Lines are no longer, unless one column makes them so.
const WIDTH: usize = 100;

const LEGEND: &str = "\
*   written by this edit           +   a value in its destination
[]  a value on its way, in scratch {}  what a register held that is saved
~   a register that is saved       ()  what a register or slot held before
-   nothing that is needed
";

/// Prints the picture for a terminal: a line for each place, a column for each stop.
impl fmt::Display for Picture {
    fn fmt(&self, f: &mut fmt::Formatter<'_>) -> fmt::Result {
        writeln!(f, "{}", self.title())?;
        for entry in &self.entries {
            writeln!(f, "  {entry}")?;
        }
        let mut columns = self.columns().into_iter().peekable();
        let names = self.names();
        while columns.peek().is_some() {
            writeln!(f)?;
            let mut lines = names.clone();
            loop {
                let column: Vec<String> = columns.next().unwrap_or_default();
                for (line, cell) in lines.iter_mut().zip(&column) {
                    *line += " | ";
                    *line += cell;
                }
                let Some(next) = columns.peek() else {
                    break;
                };
                if lines[0].chars().count() + 3 + next[0].chars().count() > WIDTH {
                    break;
                }
            }
            for line in lines {
                writeln!(f, "{}", line.trim_end())?;
            }
        }
        if !self.quiet.is_empty() {
            writeln!(f, "\nUntouched: {}", self.quiet.join(" "))?;
        }
        write!(f, "\n{LEGEND}")
    }
}

impl Picture {
    /// What it is a picture of.
    pub(super) fn title(&self) -> String {
        let (name, patch, edits) = (&self.name, self.patch, self.edits.len());
        let edits = match edits {
            1 => "1 edit".to_owned(),
            edits => format!("{edits} edits"),
        };
        format!("{name}, patch {patch}: {edits}")
    }

    /// The column of the places.
    fn names(&self) -> Vec<String> {
        let names = self.rows.iter().map(|row| row.place.to_string());
        filled([String::new()].into_iter().chain(names).collect())
    }

    /// The columns of the stops, each under its edit, what is wanted, and what became of
    /// the places.
    fn columns(&self) -> Vec<Vec<String>> {
        let edits = self.edits.iter().map(ToString::to_string);
        let heads = ["before".to_owned()].into_iter().chain(edits);
        let stops = heads.enumerate().map(|(stop, head)| {
            let cells = self.rows.iter().map(|row| marked(&row.cells[stop]));
            filled([head].into_iter().chain(cells).collect())
        });
        let wanted = self.rows.iter().map(|row| row.wanted.clone());
        let wanted = filled(["wanted".to_owned()].into_iter().chain(wanted).collect());
        let fates = self.rows.iter().map(|row| row.fate.clone());
        let ends = wanted
            .into_iter()
            .zip([String::new()].into_iter().chain(fates));
        let ends = filled(
            ends.map(|(wanted, fate)| format!("{wanted} | {fate}"))
                .collect(),
        );
        stops.chain([ends]).collect()
    }
}

/// What a cell holds, with its marks.
fn marked(cell: &Cell) -> String {
    let holds = &cell.holds;
    let (mut text, mut marks) = match cell.mark {
        Mark::Scratch => (format!("[{holds}]"), String::new()),
        Mark::Saved => (format!("{{{holds}}}"), String::new()),
        Mark::Arrived => (holds.clone(), "+".to_owned()),
        _ => (holds.clone(), String::new()),
    };
    if cell.written {
        marks.push('*');
    }
    if cell.waiting {
        marks.push('~');
    }
    if !marks.is_empty() {
        text = format!("{text} {marks}");
    }
    text
}

/// The column with all its cells as wide as the widest.
fn filled(column: Vec<String>) -> Vec<String> {
    let widths = column.iter().map(|cell| cell.chars().count());
    let width = widths.max().unwrap_or(0);
    let fill = |cell: String| format!("{cell:width$}");
    column.into_iter().map(fill).collect()
}
