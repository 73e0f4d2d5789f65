//! Many graphs, with the counts of what was found.

use crate::compare::{Expected, TextAnswer, ask_text, compare, expected};
use crate::sides::{Outcome, by, by_crate_rules};
use generators::planar::{FAMILIES, Family};
use generators::rng::Rng;
use generators::{Sample, planar, wild};
use reading::file::{Study, encode};
use reading::fill::{area_of_links, sides_alternate};
use reading::walk::{Scan, Walk, walks};
use reading::{READING, Settings};
use std::fmt;
use text::Run;

/// Counts of one family. A run is one graph with one direction, minimum and overlay rule.
#[derive(Clone, Debug, Default)]
pub struct Tally {
    pub graphs: usize,
    pub runs: usize,
    pub refused: usize,
    pub contours: usize,
    pub holes_searched: usize,
    /// Runs without D1, with two hulls or more, in which a hole passes its anchor point more than once.
    pub revisited: usize,
    pub equal: usize,
    pub difference_1: usize,
    pub difference_1_seen: usize,
    /// Runs in which the text's `extract_shapes` panics.
    pub panics: usize,
    /// Graphs round some of whose nodes filled and empty do not come by turns: demand 3 says nothing of them.
    pub uneven: usize,
    pub findings: usize,
    /// The finding with the fewest links, as the program's file.
    pub smallest: Option<(usize, Vec<u8>)>,
}

impl Tally {
    pub fn find(&mut self, sample: &Sample, settings: Settings) {
        self.findings += 1;
        let links = sample.graph.links();
        if self.smallest.as_ref().is_none_or(|(fewest, _)| links < *fewest) {
            let study = Study { settings, graph: sample.graph.clone(), state: sample.state.clone() };
            self.smallest = Some((links, encode(&study)));
        }
    }

    /// Counts a run that was compared.
    fn count(&mut self, outcome: &Outcome, text: &TextAnswer, expected: Expected, is_equal: bool) {
        self.contours += outcome.contours.len();
        if outcome.hulls() > 1 {
            self.holes_searched += outcome.contours.len() - outcome.hulls();
        }
        self.panics += text.shapes.is_none() as usize;
        self.equal += is_equal as usize;
        match expected {
            Expected::Equality { revisited } => self.revisited += revisited as usize,
            Expected::Difference1 => {
                self.difference_1 += 1;
                self.difference_1_seen += !is_equal as usize;
            }
        }
    }

    pub fn add(&mut self, other: &Self) {
        self.graphs += other.graphs;
        self.runs += other.runs;
        self.refused += other.refused;
        self.contours += other.contours;
        self.holes_searched += other.holes_searched;
        self.revisited += other.revisited;
        self.equal += other.equal;
        self.difference_1 += other.difference_1;
        self.difference_1_seen += other.difference_1_seen;
        self.panics += other.panics;
        self.uneven += other.uneven;
        self.findings += other.findings;
    }

    pub const HEADINGS: &str = "\
        | family | graphs | runs | not run | contours | holes searched | revisited | equal | D1 | seen | panics | uneven | findings |\n\
        |---|---:|---:|---:|---:|---:|---:|---:|---:|---:|---:|---:|---:|";
}

impl fmt::Display for Tally {
    fn fmt(&self, f: &mut fmt::Formatter<'_>) -> fmt::Result {
        let counts = [
            self.graphs,
            self.runs,
            self.refused,
            self.contours,
            self.holes_searched,
            self.revisited,
            self.equal,
            self.difference_1,
            self.difference_1_seen,
            self.panics,
            self.uneven,
            self.findings,
        ];
        counts.iter().try_for_each(|count| write!(f, " {count} |"))
    }
}

/// Counterclockwise, and everything kept. Points on a line are kept in every comparison: what the crate removes them by is not in
/// the text.
pub const ALL: Settings = Settings { clockwise: false, minimum: 0, drop_straight: false };

/// Both directions, with minima from nothing to just above the size of one of the graph's walks.
pub fn settings(sample: &Sample, rng: &mut Rng) -> Vec<Settings> {
    let areas: Vec<u64> = walks(&sample.graph, &sample.state, ALL, Scan::Stays)
        .unwrap_or_default()
        .iter()
        .map(|walk| walk.doubled_area().unsigned_abs() as u64 / 2)
        .collect();
    let area = if areas.is_empty() { 1 } else { rng.choose(&areas) };
    let minima = [0, 1, area, area + 1];
    [false, true].iter().flat_map(|&clockwise| minima.map(|minimum| Settings { clockwise, minimum, ..ALL })).collect()
}

/// A graph to be compared.
pub struct Compared {
    pub sample: Sample,
    /// The crate makes such graphs: shapes are compared too, and no walk may be refused.
    in_domain: bool,
    /// Filled and empty come by turns round every node.
    is_even: bool,
}

impl Compared {
    /// Counts the graph. One of the domain that is uneven is a finding.
    pub fn new(sample: Sample, in_domain: bool, tally: &mut Tally) -> Self {
        let is_even = sides_alternate(&sample.graph, &sample.state);
        #[cfg(feature = "library")]
        assert_eq!(
            lending::lists(&sample.graph).sides_alternate(&sample.state).is_ok(),
            is_even,
            "library and reading"
        );
        tally.graphs += 1;
        tally.uneven += !is_even as usize;
        if in_domain && !is_even {
            tally.find(&sample, ALL);
        }
        Self { sample, in_domain, is_even }
    }

    /// Links walked and their area are those that demand 3 says, if it says any.
    fn is_whole(&self, outcome: &Outcome, clockwise: bool) -> bool {
        let Sample { graph, state } = &self.sample;
        let unskipped = state.iter().filter(|&&state| state == 0).count();
        !self.is_even || (outcome.walked, outcome.area) == (unskipped, area_of_links(graph, state, clockwise))
    }
}

/// A planar graph of the family.
pub fn planar_sample(family: Family, rng: &mut Rng) -> Sample {
    // Mostly small, where odd cases are dense; some large.
    let size = rng.choose(&[2, 3, 3, 4, 4, 5, 6, 8, 10, 12]);
    planar::sample(family, size, rng)
}

/// Planar graphs of one family: contours, kinds, states and parents.
pub fn planar(family: Family, graphs: usize) -> Tally {
    let mut tally = Tally::default();
    for seed in 0..graphs {
        let mut rng = Rng::new(seed as u64 ^ (family as u64) << 32);
        let sample = planar_sample(family, &mut rng);
        compare_rules(&Compared::new(sample, true, &mut tally), &mut rng, &mut tally);
    }
    tally
}

/// Planar graphs with upset tops and wild graphs, outside the crate's domain: contours, kinds and states only, and only
/// where no walk is refused and the crate's scan takes the same steps.
pub fn outside(graphs: usize) -> Tally {
    let mut tally = Tally::default();
    for seed in 0..graphs {
        let mut rng = Rng::new(seed as u64 ^ 77 << 32);
        let sample = if rng.chance(50) {
            wild::sample(8, &mut rng)
        } else {
            let mut sample = planar::sample(FAMILIES[seed % FAMILIES.len()], 4, &mut rng);
            planar::upset_tops(&mut sample, &mut rng);
            sample
        };
        compare_rules(&Compared::new(sample, false, &mut tally), &mut rng, &mut tally);
    }
    tally
}

/// All settings, each with one of the overlay rules.
fn compare_rules(compared: &Compared, rng: &mut Rng, tally: &mut Tally) {
    for settings in settings(&compared.sample, rng) {
        let rule = rng.below(Run::RULES);
        let Sample { graph, state } = &compared.sample;
        compare_run(compared, settings, || ask_text(&mut Run::new(graph, state, settings, rule)), tally);
    }
}

/// One run, by the reading and, with the feature `library`, by the library; `ask` asks the text.
pub fn compare_run(compared: &Compared, settings: Settings, ask: impl FnOnce() -> TextAnswer, tally: &mut Tally) {
    tally.runs += 1;
    let sample = &compared.sample;
    let walks = walks(&sample.graph, &sample.state, settings, Scan::Stays);
    let read = by(READING, sample, settings);
    #[cfg(feature = "library")]
    assert_eq!(by(lending::LIBRARY, sample, settings), read, "library and reading");
    match (read, walks) {
        (Ok(outcome), Ok(walks)) => judge(compared, settings, &walks, &outcome, ask, tally),
        // A planar graph may have too many links, and that is all.
        (Err(refusal), _) if compared.in_domain && refusal.number != 1 => tally.find(sample, settings),
        _ => tally.refused += 1,
    }
}

fn judge(
    compared: &Compared,
    settings: Settings,
    walks: &[Walk],
    outcome: &Outcome,
    ask: impl FnOnce() -> TextAnswer,
    tally: &mut Tally,
) {
    let in_domain = compared.in_domain;
    let expected = expected(walks, outcome, settings.clockwise);
    if !in_domain && expected == Expected::Difference1 {
        tally.refused += 1;
        return;
    }
    // Where the crate's own scan sticks, the text may run for ever.
    let Some(crates) = by_crate_rules(&compared.sample, settings) else {
        tally.find(&compared.sample, settings);
        return;
    };
    let text = ask();
    let agrees = |outcome: &Outcome| {
        let equal = compare(outcome, &text);
        equal.contours && (equal.shapes || !in_domain)
    };
    let (is_equal, is_explained) = (agrees(outcome), agrees(&crates));
    tally.count(outcome, &text, expected, is_equal);
    let is_unforeseen = expected.is_equality() && !is_equal;
    let is_orphan = in_domain && expected.is_equality() && text.shapes.is_none();
    let is_whole = compared.is_whole(outcome, settings.clockwise);
    if !is_explained || is_unforeseen || is_orphan || !is_whole {
        tally.find(&compared.sample, settings);
    }
}
