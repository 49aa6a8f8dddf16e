//! Figures and aligned columns.

/// A number with commas between its thousands.
pub fn grouped(number: usize) -> String {
    if number < 1000 {
        number.to_string()
    } else {
        format!("{},{:03}", grouped(number / 1000), number % 1000)
    }
}

pub fn duration(seconds: f64) -> String {
    if seconds < 1e-6 {
        format!("{:.0} ns", 1e9 * seconds)
    } else if seconds < 1e-3 {
        format!("{:.1} us", 1e6 * seconds)
    } else if seconds < 1.0 {
        format!("{:.2} ms", 1e3 * seconds)
    } else {
        format!("{seconds:.2} s")
    }
}

/// A quotient, if there are two times and the second is above 0.
pub fn quotient(above: Option<f64>, below: Option<f64>) -> String {
    match (above, below) {
        (Some(above), Some(below)) if below > 0.0 => format!("{:.2}", above / below),
        _ => "-".to_string(),
    }
}

/// Rows as text: the first columns, so many, and the last stand to the left, the others to the right.
pub fn aligned(left: usize, rows: &[Vec<String>]) -> String {
    let columns = rows.iter().map(Vec::len).max().unwrap_or(0);
    let width = |column| {
        rows.iter()
            .filter_map(|row| row.get(column))
            .map(|cell: &String| cell.chars().count())
            .max()
    };
    let widths = (0..columns)
        .map(|column| width(column).unwrap_or(0))
        .collect::<Vec<_>>();
    let mut text = String::new();
    for row in rows {
        let mut line = String::new();
        for (column, cell) in row.iter().enumerate() {
            if column < left || column + 1 == columns {
                line += &format!("{:<width$}  ", cell, width = widths[column]);
            } else {
                line += &format!("{:>width$}  ", cell, width = widths[column]);
            }
        }
        text += line.trim_end();
        text.push('\n');
    }
    text
}

/// A row of cells that are written with a stroke between them.
pub fn row(cells: &str) -> Vec<String> {
    cells.split('|').map(str::to_string).collect()
}
