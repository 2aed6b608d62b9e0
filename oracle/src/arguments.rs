//! Arguments without end: every combination of edges first, then random bits with an edge at times.
use crate::draws::Draws;

/// So many of them are compared for each function.
pub const ARGUMENTS: u64 = 1_000_000;

pub struct Arguments {
    edges: Vec<Vec<u64>>,
    draws: Draws,
    at: u64,
    combinations: u64,
}

impl Arguments {
    pub fn new(base: u64, name: &str, edges: Vec<Vec<u64>>) -> Self {
        // Where the combinations alone would be more than are compared, edges are drawn instead.
        let all = edges.iter().map(|e| e.len() as u64).product();
        Arguments {
            edges,
            draws: Draws::new(base, name),
            at: 0,
            combinations: if all < ARGUMENTS { all } else { 0 },
        }
    }
}

impl Iterator for Arguments {
    type Item = Vec<u64>;

    fn next(&mut self) -> Option<Vec<u64>> {
        let mut place = self.at;
        let listed = self.at < self.combinations;
        self.at += 1;
        let draws = &mut self.draws;
        let take = |edges: &Vec<u64>| {
            let count = edges.len() as u64;
            if listed {
                let word = edges[(place % count) as usize];
                place /= count;
                word
            } else if draws.once_in(3) {
                draws.pick(edges)
            } else {
                draws.word()
            }
        };
        Some(self.edges.iter().map(take).collect())
    }
}
