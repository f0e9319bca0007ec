//! The aims of speed, each with what this run measured.

pub enum Bound {
    AtLeast(f64),
    AtMost(f64),
}

/// An aim: what is measured, the bound, and what this run measured; nothing where this processor cannot show it.
pub struct Aim {
    pub what: String,
    pub bound: Bound,
    pub measured: Option<f64>,
}

impl Aim {
    pub fn at_least(what: impl ToString, bound: f64, measured: Option<f64>) -> Aim {
        Aim { what: what.to_string(), bound: Bound::AtLeast(bound), measured }
    }

    pub fn at_most(what: impl ToString, bound: f64, measured: Option<f64>) -> Aim {
        Aim { what: what.to_string(), bound: Bound::AtMost(bound), measured }
    }

    /// One line: met or not met in this run.
    fn verdict(&self) -> String {
        let (words, bound) = match self.bound {
            Bound::AtLeast(bound) => ("at least", bound),
            Bound::AtMost(bound) => ("at most", bound),
        };
        let said = format!("{}: {words} {bound:.2}", self.what);
        let Some(measured) = self.measured else {
            return format!("not measured: {said}; this processor lacks what it needs");
        };
        let met = match self.bound {
            Bound::AtLeast(bound) => measured >= bound,
            Bound::AtMost(bound) => measured <= bound,
        };
        format!("{}: {said}; {measured:.2} in this run", if met { "met" } else { "not met" })
    }
}

/// One verdict line for each aim.
pub fn print(aims: &[Aim]) {
    for aim in aims {
        println!("- {}", aim.verdict());
    }
}
