//! How often each edge was met.

use crate::count::Count;

/// An edge: its name, and whether what is seen stands at it.
pub type Edge<T> = (&'static str, fn(&T) -> bool);

/// The names of edges, in their order.
pub fn names<T>(edges: Vec<Edge<T>>) -> impl Iterator<Item = String> {
    edges.into_iter().map(|(name, _)| name.to_string())
}

/// Edges in the order in which they are told, with their counts.
pub struct Tally {
    edges: Vec<(String, u64)>,
}

impl Tally {
    pub fn new(names: impl Iterator<Item = String>) -> Tally {
        Tally {
            edges: names.map(|name| (name, 0)).collect(),
        }
    }

    pub fn meet(&mut self, name: &str) {
        let edge = self.edges.iter_mut().find(|(edge, _)| edge == name);
        edge.expect("every edge has its place").1 += 1;
    }

    /// Meets every edge at which what is seen stands.
    pub fn look<T>(&mut self, edges: &[Edge<T>], seen: &T) {
        for (name, is_met) in edges {
            if is_met(seen) {
                self.meet(name);
            }
        }
    }

    /// A line for each edge; those never met are missing.
    pub fn count(self) -> Count {
        let told = |(name, times): &(String, u64)| format!("{times:>7} {name}");
        let lines: Vec<String> = self.edges.iter().map(told).collect();
        let missing = self.edges.into_iter().filter(|(_, times)| *times == 0);
        Count {
            line: lines.join("\n"),
            missing: missing.map(|(name, _)| format!("no {name}")).collect(),
        }
    }
}
