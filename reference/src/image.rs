//! The stage image: its reader with refusals 1 to 5, and the graph that comes out of it.

pub struct Graph {
    pub n: usize,
    /// The successors of each stage, ascending.
    pub next: Vec<Vec<usize>>,
    pub relations: Vec<Relation>,
}

/// What a predicate says, as plain tables of truth values.
pub enum Relation {
    One(Vec<bool>),
    Two(Vec<Vec<bool>>),
}

impl Graph {
    /// Whether predicate number `relation` holds; `second` is looked at for arity 2 only.
    pub fn related(&self, relation: usize, first: usize, second: Option<usize>) -> bool {
        match (&self.relations[relation], second) {
            (Relation::One(stages), _) => stages[first],
            (Relation::Two(rows), Some(second)) => rows[first][second],
            (Relation::Two(_), None) => unreachable!("an atom over arity 2 has two terms"),
        }
    }

    /// The stages from which one step leads to each stage.
    pub fn previous(&self) -> Vec<Vec<usize>> {
        let mut before = vec![Vec::new(); self.n];
        for stage in 0..self.n {
            for &successor in &self.next[stage] {
                before[successor].push(stage);
            }
        }
        before
    }
}

pub fn read(bytes: &[u8]) -> Result<Graph, u64> {
    if bytes.len() < 7 || &bytes[..5] != b"ZSM\x00\x01" {
        return Err(1);
    }
    let n = bytes[5] as usize;
    let p = bytes[6] as usize;
    if n == 0 || n > 64 || p > 16 {
        return Err(2);
    }
    let arities = match bytes.get(7..7 + p) {
        Some(arities) if arities.iter().all(|arity| [1, 2].contains(arity)) => arities,
        _ => return Err(3),
    };
    let rows = |arity: u8| if arity == 1 { 1 } else { n };
    let count = n + arities.iter().map(|&arity| rows(arity)).sum::<usize>();
    let body = &bytes[7 + p..];
    if body.len() != 8 * count {
        return Err(3);
    }
    // Number 4 looks at every set, those of the predicates too, before number 5 looks at any.
    let sets: Vec<Vec<bool>> = body.chunks(8).map(flags).collect();
    if sets.iter().any(|set| set[n..].contains(&true)) {
        return Err(4);
    }
    if sets[..n].iter().any(|set| !set.contains(&true)) {
        return Err(5);
    }
    let next = sets[..n].iter().map(|set| (0..n).filter(|&stage| set[stage]).collect()).collect();
    let mut rest = &sets[n..];
    let mut relations = Vec::new();
    for &arity in arities {
        let (mine, others) = rest.split_at(rows(arity));
        relations.push(match arity {
            1 => Relation::One(mine[0].clone()),
            _ => Relation::Two(mine.to_vec()),
        });
        rest = others;
    }
    Ok(Graph { n, next, relations })
}

/// Eight bytes as 64 flags. The low bit of the last byte is stage 0.
fn flags(set: &[u8]) -> Vec<bool> {
    (0..64).map(|stage| set[7 - stage / 8] & (1 << (stage % 8)) != 0).collect()
}
