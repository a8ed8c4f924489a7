//! The meaning of a formula on graphs of any size: one truth value a stage, worked out once for each modality and each
//! set of values that its operands take from outside.
//!
//! EU is a search backwards from the stages with b; AR is the absence of a way to a violation; EG is reaching a loop,
//! found by one depth-first search with three colours; AF is the absence of a loop that avoids a.

use crate::formula::{bind, Env, Formula, Modal, Mode};
use crate::image::Graph;
use std::collections::HashMap;
use std::rc::Rc;

/// What is known of one modality in one environment, stage by stage.
pub struct Sheet {
    /// Where a and b hold. `b` is empty for the modalities over one entry.
    pub a: Vec<bool>,
    pub b: Vec<bool>,
    /// Where the modality itself holds.
    pub truth: Vec<bool>,
    /// For EU: the fewest steps to a stage with b along stages with a. Empty for the others.
    pub steps: Vec<Option<usize>>,
}

/// The values outside that matter, and a mark for those that do not.
type Key = (usize, Env);
const ANY: usize = usize::MAX;

/// One of these belongs to one formula tree: the entry numbers are its names.
pub struct Tables<'g> {
    graph: &'g Graph,
    before: Vec<Vec<usize>>,
    known: HashMap<Key, Rc<Sheet>>,
}

impl<'g> Tables<'g> {
    pub fn new(graph: &'g Graph) -> Tables<'g> {
        Tables { graph, before: graph.previous(), known: HashMap::new() }
    }

    pub fn holds(&mut self, formula: &Formula, env: &Env) -> bool {
        match formula {
            Formula::Constant(value) => *value,
            Formula::Atom(atom) => atom.holds(self.graph, env),
            Formula::And(a, b) => self.holds(a, env) && self.holds(b, env),
            Formula::Or(a, b) => self.holds(a, env) || self.holds(b, env),
            Formula::Modal(modal) => self.sheet(modal, env).truth[modal.at.value(env)],
        }
    }

    pub fn sheet(&mut self, modal: &Modal, env: &Env) -> Rc<Sheet> {
        let mut outside = [ANY; 4];
        for variable in 0..4 {
            if modal.outer[variable] {
                outside[variable] = env[variable];
            }
        }
        let key = (modal.entry, outside);
        if let Some(sheet) = self.known.get(&key) {
            return Rc::clone(sheet);
        }
        let a = self.at_each_stage(&modal.a, modal.x, env);
        let b = match &modal.b {
            Some(b) => self.at_each_stage(b, modal.y, env),
            None => Vec::new(),
        };
        let sheet = Rc::new(self.work_out(modal.mode, a, b));
        self.known.insert(key, Rc::clone(&sheet));
        sheet
    }

    fn at_each_stage(&mut self, formula: &Formula, variable: usize, env: &Env) -> Vec<bool> {
        (0..self.graph.n).map(|stage| self.holds(formula, &bind(env, variable, stage))).collect()
    }

    fn work_out(&self, mode: Mode, a: Vec<bool>, b: Vec<bool>) -> Sheet {
        let next = &self.graph.next;
        let mut steps = Vec::new();
        let truth = match mode {
            Mode::Ax => next.iter().map(|list| list.iter().all(|&c| a[c])).collect(),
            Mode::Ex => next.iter().map(|list| list.iter().any(|&c| a[c])).collect(),
            Mode::Eg => self.reaches_loop(&a),
            Mode::Af => opposite(&self.reaches_loop(&opposite(&a))),
            Mode::Eu => {
                steps = self.fewest_steps(&a, &b);
                steps.iter().map(|count| count.is_some()).collect()
            }
            // A violation is a stage without b that comes before any stage with a.
            Mode::Ar => self.fewest_steps(&opposite(&a), &opposite(&b)).iter().map(|count| count.is_none()).collect(),
        };
        Sheet { a, b, truth, steps }
    }

    /// For each stage the fewest steps to a target, all stages before the target being among `through`.
    fn fewest_steps(&self, through: &[bool], target: &[bool]) -> Vec<Option<usize>> {
        let mut steps: Vec<Option<usize>> = target.iter().map(|&is| if is { Some(0) } else { None }).collect();
        let mut queue: Vec<usize> = (0..self.graph.n).filter(|&stage| target[stage]).collect();
        let mut done = 0;
        while done < queue.len() {
            let stage = queue[done];
            done += 1;
            for &earlier in &self.before[stage] {
                if through[earlier] && steps[earlier].is_none() {
                    steps[earlier] = steps[stage].map(|count| count + 1);
                    queue.push(earlier);
                }
            }
        }
        steps
    }

    /// The stages from which an endless path stays inside: those that reach a loop inside.
    fn reaches_loop(&self, inside: &[bool]) -> Vec<bool> {
        let mut colours: Vec<Colour> =
            inside.iter().map(|&is| if is { Colour::White } else { Colour::Black(false) }).collect();
        (0..self.graph.n).map(|stage| self.visit(stage, &mut colours)).collect()
    }

    fn visit(&self, stage: usize, colours: &mut Vec<Colour>) -> bool {
        match colours[stage] {
            // Grey is on the present way down: the way has closed to a loop.
            Colour::Grey => return true,
            Colour::Black(answer) => return answer,
            Colour::White => colours[stage] = Colour::Grey,
        }
        let answer = self.graph.next[stage].iter().any(|&successor| self.visit(successor, colours));
        colours[stage] = Colour::Black(answer);
        answer
    }
}

#[derive(Clone, Copy)]
enum Colour {
    White,
    Grey,
    Black(bool),
}

fn opposite(values: &[bool]) -> Vec<bool> {
    values.iter().map(|value| !value).collect()
}
