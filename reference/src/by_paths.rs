//! The meaning of a formula on small graphs, by looking for the paths themselves.
//!
//! An endless path in a finite graph can be taken to be a lasso: a way into a loop. A finite path can be taken without
//! a stage met twice. Both are looked for one by one; nothing met on another path is remembered.

use crate::formula::{bind, Env, Formula, Modal, Mode};
use crate::image::Graph;

pub struct Paths<'g> {
    graph: &'g Graph,
    /// Steps left before the search gives up: the number of paths grows with the factorial of the stages.
    left: u64,
}

impl<'g> Paths<'g> {
    pub fn new(graph: &'g Graph, most_steps: u64) -> Paths<'g> {
        Paths { graph, left: most_steps }
    }

    /// The truth of the formula, or nothing where the search gave up.
    pub fn holds(&mut self, formula: &Formula, env: &Env) -> Option<bool> {
        self.left = self.left.checked_sub(1)?;
        match formula {
            Formula::Constant(value) => Some(*value),
            Formula::Atom(atom) => Some(atom.holds(self.graph, env)),
            Formula::And(a, b) => Some(self.holds(a, env)? && self.holds(b, env)?),
            Formula::Or(a, b) => Some(self.holds(a, env)? || self.holds(b, env)?),
            Formula::Modal(modal) => self.modal(modal, env),
        }
    }

    fn modal(&mut self, modal: &Modal, env: &Env) -> Option<bool> {
        let stage = modal.at.value(env);
        let graph = self.graph;
        match modal.mode {
            Mode::Ax => {
                for &successor in &graph.next[stage] {
                    if !self.holds(&modal.a, &bind(env, modal.x, successor))? {
                        return Some(false);
                    }
                }
                return Some(true);
            }
            Mode::Ex => {
                for &successor in &graph.next[stage] {
                    if self.holds(&modal.a, &bind(env, modal.x, successor))? {
                        return Some(true);
                    }
                }
                return Some(false);
            }
            _ => {}
        }
        let mut a = Vec::new();
        let mut b = Vec::new();
        for here in 0..graph.n {
            a.push(self.holds(&modal.a, &bind(env, modal.x, here))?);
            if let Some(second) = &modal.b {
                b.push(self.holds(second, &bind(env, modal.y, here))?);
            }
        }
        let not_a: Vec<bool> = a.iter().map(|value| !value).collect();
        let not_b: Vec<bool> = b.iter().map(|value| !value).collect();
        let mut path = vec![stage];
        match modal.mode {
            Mode::Eg => Some(a[stage] && self.lasso(&a, &mut path)?),
            Mode::Af => Some(a[stage] || !self.lasso(&not_a, &mut path)?),
            Mode::Eu => self.finite(&a, &b, &mut path),
            _ => Some(!self.finite(&not_a, &not_b, &mut path)?),
        }
    }

    /// Whether the path, whose stages are all inside, can be carried on inside until it meets itself.
    fn lasso(&mut self, inside: &[bool], path: &mut Vec<usize>) -> Option<bool> {
        self.left = self.left.checked_sub(1)?;
        let graph = self.graph;
        for &successor in &graph.next[path[path.len() - 1]] {
            if !inside[successor] {
                continue;
            }
            if path.contains(&successor) {
                return Some(true);
            }
            path.push(successor);
            if self.lasso(inside, path)? {
                return Some(true);
            }
            path.pop();
        }
        Some(false)
    }

    /// Whether the path can be carried on to a target, every stage before the target being among `through`.
    fn finite(&mut self, through: &[bool], target: &[bool], path: &mut Vec<usize>) -> Option<bool> {
        self.left = self.left.checked_sub(1)?;
        let graph = self.graph;
        let stage = path[path.len() - 1];
        if target[stage] {
            return Some(true);
        }
        if !through[stage] {
            return Some(false);
        }
        for &successor in &graph.next[stage] {
            if path.contains(&successor) {
                continue;
            }
            path.push(successor);
            if self.finite(through, target, path)? {
                return Some(true);
            }
            path.pop();
        }
        Some(false)
    }
}
