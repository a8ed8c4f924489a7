//! Random formula tables: a goal's tree of a chosen kind and nesting, other trees beside it, all laid out as records.

use crate::random::Random;

/// A tree before it has entry numbers. For atoms `a` is the predicate and `b` the second term.
pub struct Tree {
    kind: u8,
    a: u8,
    b: u8,
    x: u8,
    y: u8,
    t: u8,
    operands: Vec<Tree>,
}

impl Tree {
    fn plain(kind: u8, operands: Vec<Tree>) -> Tree {
        Tree { kind, a: 0, b: 0, x: 0, y: 0, t: 0, operands }
    }

    pub fn constant(value: bool) -> Tree {
        Tree::plain(u8::from(!value), Vec::new())
    }

    pub fn both(kind: u8, a: Tree, b: Tree) -> Tree {
        Tree::plain(kind, vec![a, b])
    }

    pub fn over(kind: u8, x: u8, t: u8, a: Tree) -> Tree {
        Tree { x, t, ..Tree::plain(kind, vec![a]) }
    }

    pub fn size(&self) -> usize {
        1 + self.operands.iter().map(Tree::size).sum::<usize>()
    }
}

pub struct Grower<'r> {
    pub rng: &'r mut Random,
    pub n: usize,
    pub arities: &'r [u8],
    /// Entries that may still be spent on side branches.
    pub spare: usize,
}

impl<'r> Grower<'r> {
    /// A tree of the given kind, its modalities nesting to exactly the given depth where the kind allows.
    /// `scope` holds the variables in force, the innermost last.
    pub fn of_kind(&mut self, kind: u8, nesting: usize, scope: &[u8]) -> Tree {
        match kind {
            0 | 1 => Tree::constant(kind == 0),
            2 | 3 => self.atom(kind, scope),
            4 | 5 => {
                let beside = if nesting > 0 && self.rng.chance(40) { self.rng.between(0, nesting) } else { 0 };
                let main = self.tree(nesting, scope);
                let other = self.tree(beside, scope);
                if self.rng.chance(50) {
                    Tree::both(kind, main, other)
                } else {
                    Tree::both(kind, other, main)
                }
            }
            _ => self.modal(kind, nesting.max(1), scope),
        }
    }

    pub fn tree(&mut self, nesting: usize, scope: &[u8]) -> Tree {
        self.spare = self.spare.saturating_sub(1);
        let branch = self.spare > 0 && self.rng.chance(if nesting == 0 { 35 } else { 25 });
        if branch {
            let kind = self.rng.pick(&[4, 5]);
            self.of_kind(kind, nesting, scope)
        } else if nesting == 0 {
            self.leaf(scope)
        } else {
            let kind = self.rng.between(6, 11) as u8;
            self.modal(kind, nesting, scope)
        }
    }

    fn modal(&mut self, kind: u8, nesting: usize, scope: &[u8]) -> Tree {
        let t = self.term(scope);
        let x = self.binder(scope);
        if kind < 10 {
            let a = self.tree(nesting - 1, &with(scope, x));
            return Tree::over(kind, x, t, a);
        }
        let y = self.binder(scope);
        let beside = if nesting > 1 && self.spare > 3 && self.rng.chance(30) { self.rng.below(nesting) } else { 0 };
        let (left, right) = if self.rng.chance(50) { (nesting - 1, beside) } else { (beside, nesting - 1) };
        let a = self.tree(left, &with(scope, x));
        let b = self.tree(right, &with(scope, y));
        Tree { x, y, t, ..Tree::plain(kind, vec![a, b]) }
    }

    fn leaf(&mut self, scope: &[u8]) -> Tree {
        if self.arities.is_empty() || self.rng.chance(6) {
            return Tree::constant(self.rng.chance(50));
        }
        let kind = self.rng.pick(&[2, 3]);
        self.atom(kind, scope)
    }

    fn atom(&mut self, kind: u8, scope: &[u8]) -> Tree {
        if self.arities.is_empty() {
            return Tree::constant(kind == 2);
        }
        let predicate = self.rng.below(self.arities.len());
        let t = self.term(scope);
        let b = if self.arities[predicate] == 2 { self.term(scope) } else { 0 };
        Tree { a: predicate as u8, b, t, ..Tree::plain(kind, Vec::new()) }
    }

    /// Mostly the variable bound last, so that a modality speaks of the stage it stands on.
    fn term(&mut self, scope: &[u8]) -> u8 {
        match self.rng.below(100) {
            0..=11 => self.rng.below(self.n) as u8,
            12..=71 => 64 + scope[scope.len() - 1],
            _ => 64 + self.rng.pick(scope),
        }
    }

    /// Mostly a variable not yet in force; otherwise any, which may hide an outer one.
    fn binder(&mut self, scope: &[u8]) -> u8 {
        let unused: Vec<u8> = (0..4).filter(|variable| !scope.contains(variable)).collect();
        if !unused.is_empty() && self.rng.chance(65) {
            self.rng.pick(&unused)
        } else {
            self.rng.below(4) as u8
        }
    }
}

fn with(scope: &[u8], variable: u8) -> Vec<u8> {
    let mut inner = scope.to_vec();
    inner.push(variable);
    inner
}

/// The records of all trees in a random order that keeps operands lower, and the entry of each tree's top.
pub fn lay_out(rng: &mut Random, trees: &[Tree]) -> (Vec<[u8; 6]>, Vec<usize>) {
    let mut nodes: Vec<(&Tree, Vec<usize>)> = Vec::new();
    let tops: Vec<usize> = trees.iter().map(|tree| flatten(tree, &mut nodes)).collect();
    let mut numbers: Vec<Option<u8>> = vec![None; nodes.len()];
    let mut records = Vec::new();
    while records.len() < nodes.len() {
        let is_ready =
            |node: usize| numbers[node].is_none() && nodes[node].1.iter().all(|&below| numbers[below].is_some());
        let ready: Vec<usize> = (0..nodes.len()).filter(|&node| is_ready(node)).collect();
        let node = rng.pick(&ready);
        let (tree, below) = &nodes[node];
        let mut record = [tree.kind, tree.a, tree.b, tree.x, tree.y, tree.t];
        for (place, &operand) in below.iter().enumerate() {
            record[1 + place] = numbers[operand].unwrap_or(0);
        }
        numbers[node] = Some(records.len() as u8);
        records.push(record);
    }
    let entries = tops.iter().map(|&top| usize::from(numbers[top].unwrap_or(0))).collect();
    (records, entries)
}

fn flatten<'t>(tree: &'t Tree, nodes: &mut Vec<(&'t Tree, Vec<usize>)>) -> usize {
    let below = tree.operands.iter().map(|operand| flatten(operand, nodes)).collect();
    nodes.push((tree, below));
    nodes.len() - 1
}
