//! Tables in text: columns as wide as their widest cell, two spaces apart.

/// A column: its heading, and whether its cells stand at the right.
pub struct Column(pub &'static str, pub bool);

/// The table with its heading. The last column is not filled up.
pub fn table(columns: &[Column], rows: &[Vec<String>]) -> String {
    let width = |i: usize| rows.iter().filter_map(|row| row.get(i)).map(String::len).max().unwrap_or(0);
    let widths: Vec<usize> = columns.iter().enumerate().map(|(i, column)| width(i).max(column.0.len())).collect();
    let heading = columns.iter().map(|column| column.0.to_string()).collect();
    let mut text = String::new();
    for row in std::iter::once(&heading).chain(rows) {
        let cells: Vec<String> = columns
            .iter()
            .zip(&widths)
            .zip(row)
            .map(|((column, width), cell)| match column.1 {
                true => format!("{cell:>width$}"),
                false => format!("{cell:<width$}"),
            })
            .collect();
        text.push_str(cells.join("  ").trim_end());
        text.push('\n');
    }
    text
}

#[cfg(test)]
mod tests {
    use super::*;

    #[test]
    fn columns_are_as_wide_as_their_widest_cell() {
        let rows = [vec!["1".to_string(), "kept".to_string()], vec!["100".to_string(), "free".to_string()]];
        let text = table(&[Column("at", true), Column("state", false)], &rows);
        assert_eq!(text, " at  state\n  1  kept\n100  free\n");
        assert_eq!(table(&[Column("at", true)], &[]), "at\n");
    }
}
