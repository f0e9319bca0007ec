//! Tables in Markdown.

/// Prints a table: the first column stands at the left, the others at the right.
pub fn print(headings: &[String], rows: &[Vec<String>]) {
    let widths: Vec<usize> = (0..headings.len())
        .map(|i| rows.iter().chain([&headings.to_vec()]).map(|row| row[i].chars().count()).max().unwrap_or(0))
        .collect();
    print_row(headings, &widths);
    println!("|{}", widths.iter().map(|width| "-".repeat(width + 2) + "|").collect::<String>());
    for row in rows {
        print_row(row, &widths);
    }
}

fn print_row(cells: &[String], widths: &[usize]) {
    let mut line = format!("| {:<1$} |", cells[0], widths[0]);
    for (cell, width) in cells.iter().zip(widths).skip(1) {
        line.push_str(&format!(" {cell:>width$} |"));
    }
    println!("{line}");
}

/// Headings of a table.
pub fn headings(names: &[&str]) -> Vec<String> {
    names.iter().map(|name| name.to_string()).collect()
}
