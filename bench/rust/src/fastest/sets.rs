//! Which stages a formula holds at. What is asked about one stage is answered by looking forward from it; a whole set is worked out backwards.

use super::read::{bit, has, lowest, Entry, Image, Question, ENTRIES, STAGES, UNARY, VARIABLE};

/// The stage of a term. The stages of the four variables are the four bytes of `env`.
pub fn stage(term: u8, env: u32) -> usize {
    if term < VARIABLE {
        term as usize
    } else {
        (env >> (8 * (term & 3))) as usize & (STAGES - 1)
    }
}

pub fn bind(env: u32, x: u8, stage: usize) -> u32 {
    let shift = 8 * (x & 3);
    env & !(255 << shift) | (stage as u32) << shift
}

/// The graph's edges in both directions.
pub struct Graph<'a> {
    all: u64,
    successors: &'a [u64; STAGES],
    predecessors: [u64; STAGES],
}

impl<'a> Graph<'a> {
    pub fn new(image: &'a Image) -> Graph<'a> {
        Graph { all: image.all, successors: &image.successors, predecessors: transposed(&image.successors, image.n) }
    }

    /// The stages with a step to the set.
    pub fn before(&self, mut set: u64) -> u64 {
        let mut before = 0;
        while set != 0 {
            before |= self.predecessors[lowest(set)];
            set &= set - 1;
        }
        before
    }

    pub fn eu(&self, a: u64, b: u64) -> u64 {
        let (mut holds, mut left) = (b, b);
        while left != 0 {
            let new = self.predecessors[lowest(left)] & a & !holds;
            holds |= new;
            left = left & (left - 1) | new;
        }
        holds
    }

    pub fn af(&self, a: u64) -> u64 {
        let (mut holds, mut new) = (a, a);
        while new != 0 {
            let mut left = self.before(new) & !holds;
            new = 0;
            while left != 0 {
                let s = lowest(left);
                if self.successors[s] & !holds == 0 {
                    new |= bit(s);
                }
                left &= left - 1;
            }
            holds |= new;
        }
        holds
    }

    fn modality(&self, kind: u8, a: u64, b: u64) -> u64 {
        self.all
            & match kind {
                6 => !self.before(self.all & !a),
                7 => self.before(a),
                8 => self.af(a),
                9 => !self.af(self.all & !a),
                10 => !self.eu(self.all & !a, self.all & !b),
                _ => self.eu(a, b),
            }
    }
}

/// The stages from which some path reaches the set. A few rounds over all stages find short ways; where they do not end it, the edges are
/// turned round.
pub fn reaching(image: &Image, set: u64) -> u64 {
    let mut reaching = set;
    for _ in 0..5 {
        let before = reaching;
        for (s, next) in image.successors[..image.n].iter().enumerate() {
            reaching |= u64::from(next & before != 0) << s;
        }
        if reaching == before {
            return reaching;
        }
    }
    Graph::new(image).eu(image.all, reaching)
}

/// Rows and columns exchanged, by halves of halves.
fn transposed(rows: &[u64; STAGES], n: usize) -> [u64; STAGES] {
    let mut rows = *rows;
    let whole = n.next_power_of_two();
    let (mut width, mut mask) = (32, u64::MAX >> 32);
    while width > 0 {
        if width < whole {
            for block in rows[..whole].chunks_exact_mut(2 * width) {
                let (upper, lower) = block.split_at_mut(width);
                for (u, l) in upper.iter_mut().zip(lower) {
                    let exchange = (*u >> width ^ *l) & mask;
                    *u ^= exchange << width;
                    *l ^= exchange;
                }
            }
        }
        width /= 2;
        mask ^= mask << width;
    }
    rows
}

/// What is known of a modality for some values of the variables that its operands read: at which stages, and where it holds.
#[derive(Clone, Copy, Default)]
struct Known {
    at: u64,
    holds: u64,
}

/// Where a modality's `Known`s begin, and the variables whose values number them.
struct Kept {
    begin: usize,
    variables: u8,
}

pub struct Sets<'a> {
    question: &'a Question<'a>,
    /// 1 where the dual formulas are meant: a dual has the neighbouring kind.
    flip: u8,
    graph: Option<Graph<'a>>,
    kept: Vec<Kept>,
    slots: [u8; ENTRIES],
    known: Vec<Known>,
}

/// No slot: nothing is kept of the entry.
const NOTHING: u8 = 255;

impl<'a> Sets<'a> {
    pub fn new(question: &'a Question<'a>, flip: u8, goal: u64) -> Sets<'a> {
        let (kept, slots, known) = (Vec::new(), [NOTHING; ENTRIES], Vec::new());
        let mut sets = Sets { question, flip, graph: None, kept, slots, known };
        sets.keep(goal as usize, 0, 0);
        sets
    }

    pub fn graph(&mut self) -> &Graph<'a> {
        let image = &self.question.image;
        self.graph.get_or_insert_with(|| Graph::new(image))
    }

    /// Keeps what is worked out for each modality that stands in two others or more and reads fewer of the variables that they bind: only
    /// such a one is come to again with the same values.
    fn keep(&mut self, number: usize, bound: u8, outside: u32) {
        let entry = *self.question.entry(number);
        if entry.nesting == 0 || outside + u32::from(entry.nesting) < 3 {
            return;
        }
        let (mut in_a, mut in_b, mut depth) = (bound, bound, outside);
        if entry.kind >= 6 {
            let variables = entry.inner & bound;
            if outside >= 2 && variables.count_ones() < outside {
                self.slots[number & (ENTRIES - 1)] = self.kept.len() as u8;
                self.kept.push(Kept { begin: self.known.len(), variables });
                let more = 1 << (6 * variables.count_ones());
                self.known.resize(self.known.len() + more, Known::default());
            }
            in_a |= 1 << entry.x;
            in_b |= 1 << entry.y;
            depth += 1;
        }
        self.keep(entry.a as usize, in_a, depth);
        if !(6..=9).contains(&entry.kind) {
            self.keep(entry.b as usize, in_b, depth);
        }
    }

    fn place(&self, number: usize, env: u32) -> Option<usize> {
        let &Kept { begin, mut variables } = self.kept.get(self.slots[number & (ENTRIES - 1)] as usize)?;
        let mut place = 0;
        while variables != 0 {
            place = place << 6 | stage(VARIABLE + variables.trailing_zeros() as u8, env);
            variables &= variables - 1;
        }
        Some(begin + place)
    }

    pub fn holds(&mut self, number: usize, env: u32) -> bool {
        let entry = *self.question.entry(number);
        match entry.kind ^ self.flip {
            0 => true,
            1 => false,
            2 | 3 => self.atom_holds(&entry, env),
            4 => {
                let (first, second) = self.lighter_first(&entry);
                self.holds(first, env) && self.holds(second, env)
            }
            5 => {
                let (first, second) = self.lighter_first(&entry);
                self.holds(first, env) || self.holds(second, env)
            }
            _ => self.modality_holds(number, &entry, env, stage(entry.t, env)),
        }
    }

    fn lighter_first(&self, entry: &Entry) -> (usize, usize) {
        let (a, b) = (entry.a as usize, entry.b as usize);
        if self.question.entry(a).nesting <= self.question.entry(b).nesting {
            (a, b)
        } else {
            (b, a)
        }
    }

    pub fn atom_holds(&self, entry: &Entry, env: u32) -> bool {
        let image = &self.question.image;
        let (begin, first) = (entry.begin as usize, stage(entry.t, env));
        let is = if entry.b == UNARY {
            has(image.predicate_set(begin), first)
        } else {
            has(image.predicate_set(begin + first), stage(entry.b, env))
        };
        is ^ (entry.kind ^ self.flip == 3)
    }

    fn modality_holds(&mut self, number: usize, entry: &Entry, env: u32, s: usize) -> bool {
        let place = self.place(number, env);
        if let Some(known) = place.and_then(|place| self.known.get(place)) {
            if has(known.at, s) {
                return has(known.holds, s);
            }
        }
        let next = self.question.image.successors[s];
        let holds = match entry.kind ^ self.flip {
            6 => !self.some(entry, env, next, u64::MAX),
            7 => self.some(entry, env, next, 0),
            8 => !self.endless(entry, env, s, u64::MAX),
            9 => self.endless(entry, env, s, 0),
            10 => !self.reaches(entry, env, s, u64::MAX),
            _ => self.reaches(entry, env, s, 0),
        };
        if let Some(known) = place.and_then(|place| self.known.get_mut(place)) {
            known.at |= bit(s);
            known.holds |= u64::from(holds) << s;
        }
        holds
    }

    /// Whether each stage has to be looked at by itself to know where the operand holds.
    fn by_stages(&self, number: u8, x: u8) -> bool {
        self.question.entry(number as usize).each >> (x & 3) & 1 == 1
    }

    /// Whether a (with `not` all ones: its opposite) is at some of the stages.
    fn some(&mut self, entry: &Entry, env: u32, mut next: u64, not: u64) -> bool {
        if !self.by_stages(entry.a, entry.x) {
            return (self.stages(entry.a as usize, entry.x, env, next) ^ not) & next != 0;
        }
        while next != 0 {
            if self.holds(entry.a as usize, bind(env, entry.x, lowest(next))) == (not == 0) {
                return true;
            }
            next &= next - 1;
        }
        false
    }

    /// Whether some path from s has a (or its opposite) at every stage: a walk that comes back on itself, by depth first search.
    fn endless(&mut self, entry: &Entry, env: u32, start: usize, not: u64) -> bool {
        let (a, x, all) = (entry.a as usize, entry.x, self.question.image.all);
        let (mut known, mut with) = (all, 0);
        if self.by_stages(entry.a, x) {
            known = bit(start);
            with = u64::from(self.holds(a, bind(env, x, start)) == (not == 0)) << start;
        } else {
            with |= self.stages(a, x, env, all) ^ not;
        }
        if !has(with, start) {
            return false;
        }
        let mut walk = [0; STAGES];
        let (mut s, mut length, mut on_walk, mut left) = (start, 0, bit(start), 0);
        loop {
            let next = self.question.image.successors[s];
            if next & on_walk != 0 {
                return true;
            }
            let open = next & !left & (with | !known);
            if open == 0 {
                left |= bit(s);
                on_walk &= !bit(s);
                if length == 0 {
                    return false;
                }
                length -= 1;
                s = walk[length & (STAGES - 1)];
                continue;
            }
            let c = lowest(open);
            if !has(known, c) {
                known |= bit(c);
                if self.holds(a, bind(env, x, c)) != (not == 0) {
                    continue;
                }
                with |= bit(c);
            }
            walk[length & (STAGES - 1)] = s;
            length += 1;
            on_walk |= bit(c);
            s = c;
        }
    }

    /// Whether some path from s has b at a stage and a at all earlier ones (or their opposites), by breadth first search.
    fn reaches(&mut self, entry: &Entry, env: u32, s: usize, not: u64) -> bool {
        let all = self.question.image.all;
        let (a_by_stages, b_by_stages) = (self.by_stages(entry.a, entry.x), self.by_stages(entry.b, entry.y));
        let with_b = if b_by_stages { 0 } else { self.stages(entry.b as usize, entry.y, env, all) ^ not };
        if has(with_b, s) {
            return true;
        }
        let with_a = if a_by_stages { 0 } else { self.stages(entry.a as usize, entry.x, env, all) ^ not };
        let (mut met, mut front) = (bit(s), bit(s));
        while front != 0 {
            let b = if b_by_stages { self.stages(entry.b as usize, entry.y, env, front) ^ not } else { with_b };
            if b & front != 0 {
                return true;
            }
            let a = if a_by_stages { self.stages(entry.a as usize, entry.x, env, front) ^ not } else { with_a };
            let (mut on, mut next) = (a & front, 0);
            while on != 0 {
                next |= self.question.image.successors[lowest(on)];
                on &= on - 1;
            }
            front = next & !met;
            met |= front;
        }
        false
    }

    /// The stages among `asked` at which an entry holds, variable x standing there.
    pub fn stages(&mut self, number: usize, x: u8, env: u32, asked: u64) -> u64 {
        if asked == 0 {
            return 0;
        }
        let entry = *self.question.entry(number);
        match entry.kind ^ self.flip {
            0 => asked,
            1 => 0,
            2 => self.atom_stages(&entry, x, env, asked),
            3 => asked & !self.atom_stages(&entry, x, env, asked),
            4 => {
                let (first, second) = self.lighter_first(&entry);
                let both = self.stages(first, x, env, asked);
                self.stages(second, x, env, both)
            }
            5 => {
                let (first, second) = self.lighter_first(&entry);
                let one = self.stages(first, x, env, asked);
                one | self.stages(second, x, env, asked & !one)
            }
            _ if entry.inner >> x & 1 == 1 => {
                let (mut left, mut holds) = (asked, 0);
                while left != 0 {
                    let here = bind(env, x, lowest(left));
                    holds |= u64::from(self.modality_holds(number, &entry, here, stage(entry.t, here))) << lowest(left);
                    left &= left - 1;
                }
                holds
            }
            _ if entry.t == VARIABLE + x && asked & (asked - 1) != 0 => self.modality_set(number, &entry, env) & asked,
            _ => {
                let here = bind(env, x, lowest(asked));
                if self.modality_holds(number, &entry, here, stage(entry.t, here)) {
                    asked
                } else {
                    0
                }
            }
        }
    }

    fn atom_stages(&self, entry: &Entry, x: u8, env: u32, asked: u64) -> u64 {
        let image = &self.question.image;
        let (begin, variable) = (entry.begin as usize, VARIABLE + x);
        let all_or_none = |holds: bool| if holds { asked } else { 0 };
        if entry.b == UNARY {
            let set = image.predicate_set(begin);
            return if entry.t == variable { set & asked } else { all_or_none(has(set, stage(entry.t, env))) };
        }
        if entry.t != variable {
            let set = image.predicate_set(begin + stage(entry.t, env));
            return if entry.b == variable { set & asked } else { all_or_none(has(set, stage(entry.b, env))) };
        }
        let (mut left, mut holds) = (asked, 0);
        while left != 0 {
            let s = lowest(left);
            let second = if entry.b == variable { s } else { stage(entry.b, env) };
            holds |= (image.predicate_set(begin + s) >> second & 1) << s;
            left &= left - 1;
        }
        holds
    }

    /// The stages at which a modality holds, whatever its term.
    pub fn modality_set(&mut self, number: usize, entry: &Entry, env: u32) -> u64 {
        let all = self.question.image.all;
        let place = self.place(number, env);
        if let Some(known) = place.and_then(|place| self.known.get(place)) {
            if known.at == all {
                return known.holds;
            }
        }
        let a = self.stages(entry.a as usize, entry.x, env, all);
        let b = if entry.kind >= 10 { self.stages(entry.b as usize, entry.y, env, all) } else { 0 };
        let kind = entry.kind ^ self.flip;
        let holds = self.graph().modality(kind, a, b);
        if let Some(known) = place.and_then(|place| self.known.get_mut(place)) {
            *known = Known { at: all, holds };
        }
        holds
    }
}
