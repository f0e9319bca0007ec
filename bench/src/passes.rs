//! Pieces of work beside two of them that are one pass over a deal.
use crate::table;
use crate::timing::{shown, timed, Times, Work};
use crate::LONG;

/// Names and pieces of work; the first two are the passes.
pub type Works<'a> = Vec<(&'static str, Work<'a>)>;

/// The times of pieces of work, by their names.
pub struct Passes {
    names: Vec<&'static str>,
    times: Times,
}

impl Passes {
    /// Times the work, and prints for each piece its time and how many of either pass that is.
    pub fn print(works: Works, headings: [&str; 2]) -> Passes {
        let (names, mut works): (Vec<&str>, Vec<Work>) = works.into_iter().unzip();
        let times = timed(&mut works, LONG, 1);
        let rows: Vec<Vec<String>> = names
            .iter()
            .enumerate()
            .map(|(i, name)| {
                let passes = [format!("{:.2}", times.ratio(i, 0)), format!("{:.3}", times.ratio(i, 1))];
                [name.to_string(), shown(times.of(i))].into_iter().chain(passes).collect()
            })
            .collect();
        table::print(&table::headings(&["work", "library", headings[0], headings[1]]), &rows);
        Passes { names, times }
    }

    /// How many times as long the slowest of some pieces takes as another piece.
    pub fn slowest(&self, works: &[&str], other: &str) -> Option<f64> {
        let place = |wanted: &&str| self.names.iter().position(|name| name == wanted);
        let other = place(&other)?;
        works.iter().filter_map(place).map(|work| self.times.ratio(work, other)).max_by(f64::total_cmp)
    }
}
