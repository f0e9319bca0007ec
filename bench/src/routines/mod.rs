//! Every routine at every level, on short inputs and on longer ones: whether one is slower than on the lowest level.
mod cases;
mod inputs;

use crate::aims::Aim;
use crate::library::{Library, FUNCTIONS};
use crate::table;
use crate::timing::{shown, timed, Times, Work};
use crate::SHORT;
use inputs::Inputs;

/// The library of the lowest level among those that are timed.
const LOWEST: usize = 1;

/// What stands for the level of a function that goes to the lowest one for short inputs.
const BY_LENGTH: &str = "length";

/// A function of the library on an input, `repeats` times in a timed run.
pub struct Case<'a> {
    function: &'static str,
    input: &'static str,
    repeats: usize,
    work: Box<dyn Fn(&'a Library) -> Work<'a> + 'a>,
}

/// Prints each case's time on the lowest level, and at each level over that. The first library is the one that chooses.
pub fn print(libraries: &[Library]) -> Vec<Aim> {
    let inputs = Inputs::new();
    let cases = cases::all(&inputs);
    let missing: Vec<_> = FUNCTIONS.iter().filter(|name| !cases.iter().any(|case| case.function == **name)).collect();
    assert!(missing.is_empty(), "not measured: {missing:?}");
    let times: Vec<Times> = cases.iter().map(|case| measured(case, libraries)).collect();
    let measured = Measured { libraries, cases, times };
    measured.print();
    measured.aims()
}

fn measured<'a>(case: &Case<'a>, libraries: &'a [Library]) -> Times {
    let mut works: Vec<Work> = libraries.iter().map(|library| (case.work)(library)).collect();
    timed(&mut works, SHORT, case.repeats)
}

/// The cases with the times of each library.
struct Measured<'a> {
    libraries: &'a [Library],
    cases: Vec<Case<'a>>,
    times: Vec<Times>,
}

impl Measured<'_> {
    fn library(&self, name: &str) -> Option<usize> {
        self.libraries.iter().position(|library| library.name == name)
    }

    /// The level that the first library chooses for the function of a case; `length` where it looks at the input's too.
    fn level(&self, case: usize) -> &'static str {
        self.libraries[0].level_of(self.cases[case].function).unwrap_or(BY_LENGTH)
    }

    /// A library's time in a case over that of the lowest level.
    fn ratio(&self, case: usize, library: usize) -> f64 {
        self.times[case].ratio(library, LOWEST)
    }

    fn print(&self) {
        let levels = self.libraries.iter().map(|library| library.name.clone());
        let headings =
            table::headings(&["function", "time on v1", "level"]).into_iter().chain(levels).collect::<Vec<_>>();
        let rows: Vec<Vec<String>> = (0..self.cases.len()).map(|case| self.row(case)).collect();
        table::print(&headings, &rows);
    }

    fn row(&self, case: usize) -> Vec<String> {
        let Case { function, input, .. } = &self.cases[case];
        let ratios = (0..self.libraries.len()).map(|library| format!("{:.2}", self.ratio(case, library)));
        let time = shown(self.times[case].of(LOWEST));
        [format!("{function}{input}"), time, self.level(case).to_string()].into_iter().chain(ratios).collect()
    }

    /// The slowest case beside the lowest level: as this processor chooses, and as one with AVX2 alone would.
    fn aims(&self) -> Vec<Aim> {
        let chosen = |case: usize| self.ratio(case, 0);
        let with_avx2 = |case: usize| match (self.level(case), self.library("v3")) {
            ("v1", _) | (_, None) => 1.0,
            // Short inputs go to the lowest level, which is where this one is slower.
            (BY_LENGTH, Some(v3)) => self.ratio(case, v3).min(1.0),
            (_, Some(v3)) => self.ratio(case, v3),
        };
        vec![
            self.slowest("on this processor", chosen),
            self.slowest("on one with AVX2 and no AVX-512", with_avx2),
            Aim::at_most("Fr32 there or back, nanoseconds a raw byte", 0.5, self.fr32()),
        ]
    }

    /// The slower of padding and the way back, on the longer input.
    fn fr32(&self) -> Option<f64> {
        let long = |case: &usize| self.cases[*case].input == cases::RAW_INPUT;
        let times = (0..self.cases.len()).filter(long).map(|case| self.times[case].of(0) / cases::RAW as f64 * 1e9);
        times.max_by(f64::total_cmp)
    }

    fn slowest(&self, processor: &str, ratio: impl Fn(usize) -> f64) -> Aim {
        let all = 0..self.cases.len();
        let case = all.max_by(|i, j| ratio(*i).total_cmp(&ratio(*j))).expect("there are cases");
        let Case { function, input, .. } = &self.cases[case];
        let what = format!("slowest routine {processor}, {function}{input}, time over the lowest level's");
        Aim::at_most(what, 1.03, Some(ratio(case)))
    }
}
