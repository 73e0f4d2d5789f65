//! What graphs look like: those that the text makes of polygons, beside the generated ones.

use crate::tally::ALL;
use generators::Sample;
use reading::graph::Graph;
use reading::walk::{Scan, walks};
use std::fmt;

/// Sums over the graphs of a family.
#[derive(Clone, Debug, Default)]
pub struct Look {
    graphs: usize,
    links: usize,
    skipped: usize,
    nodes: usize,
    /// Nodes of 2, 4, 6 and 8 links, of more, and of an odd number.
    degrees: [usize; 6],
    /// Nodes of two links that lie on one line.
    joints: usize,
    /// Nodes in which outlines touch: more than two links are not skipped.
    touching: usize,
    hulls: usize,
    holes: usize,
}

impl Look {
    pub const HEADINGS: &str = "\
        | family | links | skipped % | nodes | 2 % | 4 % | 6 % | 8 % | more % | odd % | joints % | touching % | hulls | holes |\n\
        |---|---:|---:|---:|---:|---:|---:|---:|---:|---:|---:|---:|---:|---:|";

    pub fn of(samples: impl Iterator<Item = Sample>) -> Self {
        let mut look = Self::default();
        samples.for_each(|sample| look.add(&sample));
        look
    }

    fn add(&mut self, Sample { graph, state }: &Sample) {
        self.graphs += 1;
        self.links += graph.links();
        self.skipped += state.iter().filter(|&&state| state == 1).count();
        self.nodes += graph.nodes();
        (0..graph.nodes()).for_each(|node| self.add_node(graph, state, node));
        let walks = walks(graph, state, ALL, Scan::Stays).unwrap_or_default();
        let holes = walks.iter().filter(|walk| walk.hole).count();
        self.holes += holes;
        self.hulls += walks.len() - holes;
    }

    fn add_node(&mut self, graph: &Graph, state: &[u8], node: usize) {
        let links: Vec<usize> = graph.entries(node).collect();
        let place = match links.len() {
            degree if degree % 2 == 1 => 5,
            degree => (degree / 2 - 1).min(4),
        };
        self.degrees[place] += 1;
        self.touching += (links.iter().filter(|&&link| state[link] == 0).count() > 2) as usize;
        if let [one, other] = links[..] {
            self.joints += (graph.leaving(one, node).cross(graph.leaving(other, node)) == 0) as usize;
        }
    }
}

/// A row: means of a graph, and shares of its links or nodes.
impl fmt::Display for Look {
    fn fmt(&self, f: &mut fmt::Formatter<'_>) -> fmt::Result {
        let mean = |sum: usize| sum as f64 / self.graphs.max(1) as f64;
        let share = |part: usize, of: usize| 100.0 * part as f64 / of.max(1) as f64;
        write!(f, " {:.0} | {:.0} | {:.0} |", mean(self.links), share(self.skipped, self.links), mean(self.nodes))?;
        let nodes = self.degrees.iter().chain([&self.joints, &self.touching]);
        nodes.map(|&part| share(part, self.nodes)).try_for_each(|percent| write!(f, " {percent:.1} |"))?;
        write!(f, " {:.1} | {:.1} |", mean(self.hulls), mean(self.holes))
    }
}
