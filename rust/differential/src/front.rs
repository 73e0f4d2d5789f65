//! Graphs that the text's own front end makes of polygons: the reading (and the library) is lent them, the text runs on its own.

use crate::compare::{Shapes, ask_text};
use crate::tally::{Compared, Tally, compare_run, settings};
use generators::Sample;
use generators::polygons::{self, Contour, Family, Polygons};
use generators::rng::Rng;
use reading::Settings;
use std::fmt;
use std::panic::{AssertUnwindSafe, catch_unwind};
use text::{Front, Run};

/// Polygons, and which graph the text makes of them.
#[derive(Clone, Debug)]
pub struct Question {
    polygons: Polygons,
    /// The fill rule and the overlay rule, by their numbers.
    fill: usize,
    rule: usize,
    /// All links, of which the rule skips some; else only those that the rule keeps.
    all_links: bool,
    /// Points in the middle of the polygons' straight edges stay.
    keep_collinear: bool,
    seed: u64,
}

impl fmt::Display for Question {
    fn fmt(&self, f: &mut fmt::Formatter<'_>) -> fmt::Result {
        let Self { polygons, fill, rule, all_links, keep_collinear, .. } = self;
        let points = |contour: &Contour| contour.iter().map(|point| (point.x, point.y)).collect::<Vec<_>>();
        let side = |side: &[Contour]| side.iter().map(points).collect::<Vec<_>>();
        write!(f, "subject {:?}, clip {:?}, ", side(&polygons.subject), side(&polygons.clip))?;
        write!(f, "fill {fill}, rule {rule}, all links {all_links}, collinear kept {keep_collinear}")
    }
}

impl Question {
    /// The rules take turns: in 112 seeds every fill rule meets every overlay rule, with all links and without those that are
    /// skipped, with collinear points and without.
    pub fn new(family: Family, seed: usize) -> Self {
        let (fill, turn) = (seed % Front::FILLS, seed / Front::FILLS);
        let (rule, turn) = (turn % Run::RULES, turn / Run::RULES);
        let (all_links, keep_collinear) = (turn % 2 == 0, turn / 2 % 2 == 0);
        let seed = seed as u64 ^ (200 + family as u64) << 32;
        let mut rng = Rng::new(seed);
        // Mostly small, where odd cases are dense; some large.
        let size = if rng.below(300) == 0 { 30 } else { rng.choose(&[2, 2, 3, 3, 4, 4, 5, 6, 8, 12]) };
        let polygons = polygons::sample(family, size, &mut rng);
        Self { polygons, fill, rule, all_links, keep_collinear, seed }
    }

    fn front(&self) -> Front {
        Front::new(&self.polygons.subject, &self.polygons.clip, self.keep_collinear)
    }

    /// The text's graph; none if the polygons leave no edge.
    fn run(&self) -> Option<Run> {
        let mut front = self.front();
        if self.all_links { front.view(self.fill, self.rule) } else { front.kept(self.fill, self.rule) }
    }

    /// The text's graph as it is lent.
    pub fn sample(&self) -> Option<Sample> {
        self.run().map(|run| lent(&run))
    }

    /// The shapes that the text's `overlay` makes of the polygons; none where it panics.
    fn overlay(&self, settings: Settings) -> Option<Shapes> {
        catch_unwind(AssertUnwindSafe(|| self.front().overlay(self.fill, self.rule, settings))).ok()
    }

    /// Compares the graph under every setting, and its shapes with those of the text's `overlay`.
    fn compare(&self, tally: &mut Tally) {
        let Some(mut run) = self.run() else { return };
        let compared = Compared::new(lent(&run), true, tally);
        for settings in settings(&compared.sample, &mut Rng::new(self.seed)) {
            run.set(settings);
            let mut is_alike = true;
            let ask = || {
                let answer = ask_text(&mut run);
                is_alike = self.overlay(settings) == answer.shapes;
                answer
            };
            compare_run(&compared, settings, ask, tally);
            if !is_alike {
                tally.find(&compared.sample, settings);
            }
        }
    }

    /// The counts of this graph. Any panic but those of the text's binding is a finding.
    fn tally(&self) -> Tally {
        let mut tally = Tally::default();
        let is_compared = catch_unwind(AssertUnwindSafe(|| self.compare(&mut tally))).is_ok();
        tally.graphs = 1;
        tally.findings += !is_compared as usize;
        tally
    }

    fn points(&self) -> usize {
        self.polygons.subject.iter().chain(&self.polygons.clip).map(Vec::len).sum()
    }

    /// The same with the fewest polygons that still bring a finding of the kind.
    fn shrink(self) -> Self {
        let is_uneven = self.tally().uneven > 0;
        let brings_one = |polygons: &Polygons| {
            let tally = Self { polygons: polygons.clone(), ..self }.tally();
            tally.findings > 0 && (tally.uneven > 0) == is_uneven
        };
        Self { polygons: self.polygons.clone().shrink(brings_one), ..self }
    }
}

fn lent(run: &Run) -> Sample {
    let (graph, state) = run.lent();
    Sample { graph, state }
}

/// Polygons of one family: the counts, and the smallest polygons that bring a finding.
pub fn front(family: Family, graphs: usize) -> (Tally, Option<Question>) {
    let mut tally = Tally::default();
    let mut smallest: Option<Question> = None;
    for seed in 0..graphs {
        let question = Question::new(family, seed);
        let counts = question.tally();
        tally.add(&counts);
        if counts.findings > 0 && smallest.as_ref().is_none_or(|found| question.points() < found.points()) {
            smallest = Some(question);
        }
    }
    (tally, smallest.map(Question::shrink))
}
