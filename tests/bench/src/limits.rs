// limits.rs: what the library's instructions may be, and the lines that name a count above it.

use crate::report::grouped;

/// A workload with its instructions a command: by the library command by command and with the whole tape, and by the plain card.
pub struct Counted {
    pub name: String,
    pub counts: [f64; 3],
}

/// So many times those of the plain card, or so many.
pub enum Limit {
    OfPlain(f64),
    Instructions(f64),
}

impl Limit {
    fn figure(&self, instructions: f64, plain: f64) -> f64 {
        match self {
            Limit::OfPlain(_) => instructions / plain,
            Limit::Instructions(_) => instructions,
        }
    }

    fn limit(&self) -> f64 {
        match self {
            Limit::OfPlain(limit) | Limit::Instructions(limit) => *limit,
        }
    }

    /// A figure and the limit, in words.
    fn words(&self, figure: f64) -> String {
        match self {
            Limit::OfPlain(limit) => format!("{figure:.3} of plain, at most {limit}"),
            Limit::Instructions(limit) => format!("{} instructions, at most {}", grouped(figure), grouped(*limit)),
        }
    }

    /// The library's two figures.
    fn figures(&self, counted: &Counted) -> [f64; 2] {
        let [library, whole, plain] = counted.counts;
        [library, whole].map(|instructions| self.figure(instructions, plain))
    }

    /// The highest figure of a kind of workloads.
    pub fn highest(&self, kind: &str, all: &[Counted]) -> String {
        let highest = all.iter().flat_map(|counted| self.figures(counted)).fold(0.0, f64::max);
        format!("{kind}: {}", self.words(highest))
    }

    /// A line for each figure above the limit.
    pub fn above(&self, all: &[Counted]) -> Vec<String> {
        let line = |counted: &Counted, how: &str, figure: f64| {
            (figure > self.limit()).then(|| format!("above its limit: {}, {how}: {}", counted.name, self.words(figure)))
        };
        let lines = |counted: &Counted| {
            let [library, whole] = self.figures(counted);
            [line(counted, "by command", library), line(counted, "by whole tape", whole)]
        };
        all.iter().flat_map(lines).flatten().collect()
    }
}
