//! Makes the pieces of work: work speed FILE, or work stack FILE. The file's form is in bench/README.md. The certificates that are to be
//! checked are written by `idiomatic`.

use rivals::idiomatic;
use std::{env, fs, process};

const VERDICT: u8 = 1;
const CHECK: u8 = 2;
const WRITE: u8 = 3;
const DEAD_ENDS: u8 = 4;

const PROGRAM_BUFFER: u64 = 32_768;
const SIZES: [usize; 4] = [8, 16, 32, 64];

/// The terms that are variables.
const X: [u8; 4] = [64, 65, 66, 67];

const TRUE: u8 = 0;
const FALSE: u8 = 1;
const P: u8 = 2;
const AND: u8 = 4;
const OR: u8 = 5;
const AX: u8 = 6;
const AF: u8 = 8;
const EG: u8 = 9;
const AR: u8 = 10;
const EU: u8 = 11;

/// A stage image in the making: successor sets, and predicates with one set or n.
struct Image {
    successors: Vec<u64>,
    predicates: Vec<Vec<u64>>,
}

impl Image {
    fn new(n: usize, successors: impl Fn(usize) -> u64) -> Image {
        Image { successors: (0..n).map(successors).collect(), predicates: Vec::new() }
    }

    fn with(mut self, predicate: Vec<u64>) -> Image {
        self.predicates.push(predicate);
        self
    }

    fn bytes(&self) -> Vec<u8> {
        let mut bytes = vec![b'Z', b'S', b'M', 0, 1, self.successors.len() as u8, self.predicates.len() as u8];
        bytes.extend(self.predicates.iter().map(|sets| if sets.len() == 1 { 1 } else { 2 }));
        bytes.extend(self.successors.iter().chain(self.predicates.iter().flatten()).flat_map(|set| set.to_be_bytes()));
        bytes
    }
}

/// A formula table in the making. Each call adds an entry and gives its number.
#[derive(Default)]
struct Table {
    records: Vec<[u8; 6]>,
}

impl Table {
    fn add(&mut self, record: [u8; 6]) -> u8 {
        self.records.push(record);
        self.records.len() as u8 - 1
    }

    fn constant(&mut self, kind: u8) -> u8 {
        self.add([kind, 0, 0, 0, 0, 0])
    }

    fn unary(&mut self, predicate: u8, term: u8) -> u8 {
        self.add([P, predicate, 0, 0, 0, term])
    }

    fn binary(&mut self, predicate: u8, first: u8, second: u8) -> u8 {
        self.add([P, predicate, second, 0, 0, first])
    }

    fn join(&mut self, kind: u8, a: u8, b: u8) -> u8 {
        self.add([kind, a, b, 0, 0, 0])
    }

    /// AX, EX, AF or EG with variable x bound in a.
    fn one(&mut self, kind: u8, a: u8, x: u8, term: u8) -> u8 {
        self.add([kind, a, 0, x, 0, term])
    }

    /// AR or EU with variable x bound in a, and in b.
    fn two(&mut self, kind: u8, a: u8, b: u8, x: u8, term: u8) -> u8 {
        self.add([kind, a, b, x, x, term])
    }

    fn goal(&self) -> u64 {
        self.records.len() as u64 - 1
    }

    fn bytes(&self) -> Vec<u8> {
        let mut bytes = vec![b'Z', b'S', b'F', 0, 1, self.records.len() as u8];
        bytes.extend(self.records.iter().flatten());
        bytes
    }
}

fn all(n: usize) -> u64 {
    u64::MAX >> (64 - n)
}

/// Numbers that look random and are the same on every machine.
struct Numbers(u64);

impl Numbers {
    fn next(&mut self) -> u64 {
        self.0 = self.0.wrapping_mul(6_364_136_223_846_793_005).wrapping_add(1_442_695_040_888_963_407);
        self.0 ^ self.0 >> 29
    }
}

type Setup = (Image, Table);

/// AX over AX .. over an atom, on a graph where every stage leads to every one.
fn ax_tree(n: usize, nesting: usize) -> Setup {
    let mut table = Table::default();
    let mut entry = table.unary(0, X[nesting % 4]);
    for level in (0..nesting).rev() {
        entry = table.one(AX, entry, (level as u8 + 1) % 4, X[level]);
    }
    (Image::new(n, |_| all(n)).with(vec![all(n)]), table)
}

/// Stage 0, then so many pairs, each stage leading to both of the next pair, then a chain; the last stage leads to itself.
fn ladder(pairs: usize, chain: usize) -> Image {
    let n = 1 + 2 * pairs + chain;
    Image::new(n, |s| {
        let pair = (s + 1) / 2;
        if pair < pairs {
            3 << (2 * pair + 1)
        } else if s <= 2 * pairs && chain > 0 {
            1 << (2 * pairs + 1)
        } else if s <= 2 * pairs {
            3 << (2 * pairs - 1)
        } else {
            1 << (s + 1).min(n - 1)
        }
    })
}

/// AF(fired or aborted) on a ladder whose end fires: the proof doubles at each pair.
fn af_tree(pairs: usize, chain: usize) -> Setup {
    let image = ladder(pairs, chain);
    let end = if chain == 0 { 3 << (2 * pairs - 1) } else { 1 << (image.successors.len() - 1) };
    let mut table = Table::default();
    let (fired, aborted) = (table.unary(0, X[1]), table.unary(1, X[1]));
    let either = table.join(OR, fired, aborted);
    table.one(AF, either, 1, X[0]);
    (image.with(vec![end]).with(vec![0]), table)
}

/// AR(false, EU(true, fired)) on a ladder whose last two pairs fire: the proof doubles at each pair, with an EU walk at every stage, and
/// ends in merges.
fn ar_tree(pairs: usize) -> Setup {
    let mut table = Table::default();
    let (never, always, fired) = (table.constant(FALSE), table.constant(TRUE), table.unary(0, X[3]));
    let reach = table.two(EU, always, fired, 3, X[2]);
    table.two(AR, never, reach, 2, X[0]);
    (ladder(pairs, 0).with(vec![15 << (2 * pairs - 3)]), table)
}

/// Three AF in one another, each from the start again, on 32 pairs of which the last fires: about 2^93 bytes.
fn explosion() -> Setup {
    let image = Image::new(64, |s| 3 << (s / 2 * 2 + 2).min(62)).with(vec![3 << 62]);
    let mut table = Table::default();
    let fired = table.unary(0, X[3]);
    let mut entry = table.one(AF, fired, 3, X[0]);
    for x in [2, 1] {
        let fired = table.unary(0, X[x]);
        let both = table.join(AND, fired, entry);
        entry = table.one(AF, both, x as u8, X[0]);
    }
    (image, table)
}

/// Which outer variables the modalities of a nested question name, besides the one that each starts at.
#[derive(Clone, Copy, PartialEq)]
enum Outer {
    None,
    Next,
    Every,
}

/// AF over EG over AR over EU, so many of them; level k binds variable k, the fourth variable 0. The graph is a ring of eight blocks of
/// stages, the last of which fires, and every stage leads to two of the next block. All that is asked holds, and each level has to look at
/// every stage up to the last block: what is before is related to what is after.
fn nested(n: usize, nesting: usize, outer: Outer) -> Setup {
    let width = n / 8;
    let fired = all(n) & !all(n - width);
    let image = Image::new(n, |s| {
        let next_block = (s / width + 1) % 8 * width;
        1 << (next_block + s % width) | 1 << (next_block + (s + 1) % width)
    });
    let mut image = image.with(vec![fired]).with(vec![all(n) & !fired]);
    if outer != Outer::None {
        image = image.with((0..n).map(|a| all(n) & u64::MAX << a).collect());
        image = image.with((0..n).map(|a| all(a + 1)).collect());
    }
    let (fires, waits, before, after) = (0, 1, 2, 3);
    let mut table = Table::default();
    let mut inside = None;
    for level in (1..=nesting).rev() {
        let (bound, x, start) = (X[level % 4], level as u8 % 4, X[level - 1]);
        let mut here = table.unary(if level == 1 || level == 4 { fires } else { waits }, bound);
        let named = match outer {
            Outer::None => 1..1,
            Outer::Next => level.max(2) - 1..level,
            Outer::Every => 1..level,
        };
        for outside in named.map(|variable| X[variable]) {
            // The bound variable is the second term, and at level 3 the first.
            let related =
                if level == 3 { table.binary(after, bound, outside) } else { table.binary(before, outside, bound) };
            here = table.join(AND, here, related);
        }
        if let Some(inner) = inside {
            here = table.join(if level == 1 { OR } else { AND }, here, inner);
        }
        inside = Some(match level {
            1 => table.one(AF, here, x, start),
            2 => table.one(EG, here, x, start),
            3 => {
                let (release, at_the_end) = (table.unary(fires, bound), table.unary(fires, bound));
                let b = table.join(OR, here, at_the_end);
                table.two(AR, release, b, x, start)
            }
            _ => {
                let on_the_way = table.unary(waits, bound);
                table.two(EU, on_the_way, here, x, start)
            }
        });
    }
    (image, table)
}

/// A chain whose last stage but one fires: the last is a dead end.
fn chain(n: usize) -> Image {
    Image::new(n, |s| 1 << (s + 1).min(n - 1)).with(vec![1 << (n - 2)])
}

/// Two ways on from every stage, none from the lower half to the upper, where one stage fires: the lower half are dead ends.
fn scattered(n: usize) -> Image {
    let mut numbers = Numbers(7 * n as u64);
    let half = n / 2;
    let ends: Vec<u64> = (0..2 * n).map(|_| numbers.next()).collect();
    let image = Image::new(n, |s| {
        let reach = if s < half { half } else { n } as u64;
        1 << (ends[2 * s] % reach) | 1 << (ends[2 * s + 1] % reach)
    });
    image.with(vec![1 << (n - 2)])
}

/// The file in the making, with the number of pieces so far.
#[derive(Default)]
struct Work {
    bytes: Vec<u8>,
    pieces: u32,
}

impl Work {
    fn blob(&mut self, bytes: &[u8]) {
        self.bytes.extend((bytes.len() as u32).to_be_bytes());
        self.bytes.extend(bytes);
    }

    /// A piece of work at start 0; its number.
    fn piece(&mut self, name: &str, service: u8, room: u64, (image, table): &Setup, certificate: &[u8]) -> u32 {
        self.bytes.push(service);
        for number in [table.goal(), 0, room] {
            self.bytes.extend(number.to_be_bytes());
        }
        self.blob(name.as_bytes());
        self.blob(&image.bytes());
        self.blob(&table.bytes());
        self.blob(certificate);
        self.pieces += 1;
        self.pieces - 1
    }

    /// A row of pieces in which one thing grows.
    fn series(&mut self, name: &str, pieces: &[u32]) {
        self.bytes.push(0);
        self.blob(name.as_bytes());
        self.bytes.extend((pieces.len() as u32).to_be_bytes());
        self.bytes.extend(pieces.iter().flat_map(|piece| piece.to_be_bytes()));
    }
}

fn certificate(setup: &Setup) -> Vec<u8> {
    let mut buffer = vec![0; 2 << 20];
    let answer = idiomatic::write(&setup.0.bytes(), &setup.1.bytes(), setup.1.goal(), 0, &mut buffer);
    let (_, length) = answer.expect("a setup that can be written");
    buffer.truncate(length);
    buffer
}

fn checks(work: &mut Work) {
    let trees: [(&str, [Setup; 4]); 3] = [
        ("AX tree", [ax_tree(32, 2), ax_tree(25, 3), ax_tree(50, 3), ax_tree(32, 4)]),
        ("AF tree", [af_tree(8, 0), af_tree(12, 0), af_tree(15, 0), af_tree(18, 0)]),
        ("AR tree, EU", [ar_tree(6), ar_tree(10), ar_tree(13), ar_tree(16)]),
    ];
    for (tree, setups) in &trees {
        let mut pieces = Vec::new();
        let mut lengths = Vec::new();
        for setup in setups {
            let certificate = certificate(setup);
            let name = format!("check {}, {} bytes", tree, certificate.len());
            pieces.push(work.piece(&name, CHECK, 0, setup, &certificate));
            lengths.push(certificate.len().to_string());
        }
        work.series(&format!("check {}, bytes {}", tree, lengths.join(", ")), &pieces);
    }
}

fn verdicts(work: &mut Work) {
    let sorts = [(Outer::None, "names no outer"), (Outer::Next, "names next outer"), (Outer::Every, "names all outer")];
    for (outer, words) in sorts {
        let mut deepest = Vec::new();
        for nesting in 1..=4 {
            // With no modality or one outside there is less to tell apart.
            if nesting == 1 && outer != Outer::None || nesting == 2 && outer == Outer::Every {
                continue;
            }
            let name = format!("nesting {}, {}", nesting, words);
            let pieces = SIZES.map(|n| {
                work.piece(&format!("verdict n {}, {}", n, name), VERDICT, 0, &nested(n, nesting, outer), &[])
            });
            work.series(&format!("verdict {}, n 8, 16, 32, 64", name), &pieces);
            deepest.push(pieces[3]);
        }
        let from = 5 - deepest.len();
        let nestings: Vec<String> = (from..=4).map(|nesting| nesting.to_string()).collect();
        work.series(&format!("verdict n 64, {}, nesting {}", words, nestings.join(", ")), &deepest);
    }
}

fn writings(work: &mut Work) {
    let trees: [(&str, [Setup; 2]); 3] = [
        ("AX tree", [ax_tree(32, 2), ax_tree(31, 3)]),
        ("AF tree", [af_tree(8, 0), af_tree(11, 11)]),
        ("AR tree, EU", [ar_tree(6), ar_tree(11)]),
    ];
    for (tree, setups) in &trees {
        let lengths = [certificate(&setups[0]).len(), certificate(&setups[1]).len()];
        let pieces = [0, 1].map(|k| {
            let name = format!("write {}, {} bytes", tree, lengths[k]);
            work.piece(&name, WRITE, PROGRAM_BUFFER, &setups[k], &[])
        });
        work.series(&format!("write {}, bytes {}, {}", tree, lengths[0], lengths[1]), &pieces);
    }
    work.piece("write 3 AF, 2^93 bytes: 14", WRITE, PROGRAM_BUFFER, &explosion(), &[]);
    work.piece("write AR tree, EU, 2^35 bytes: 14", WRITE, PROGRAM_BUFFER, &ar_tree(31), &[]);
}

fn reports(work: &mut Work) {
    for (shape, images) in [("chain", SIZES.map(chain)), ("scattered", SIZES.map(scattered))] {
        let pieces = images.map(|image| {
            let mut table = Table::default();
            table.constant(TRUE);
            let name = format!("dead ends n {}, {}", image.successors.len(), shape);
            work.piece(&name, DEAD_ENDS, 8, &(image, table), &[])
        });
        work.series(&format!("dead ends {}, n 8, 16, 32, 64", shape), &pieces);
    }
}

/// Four modalities of one kind in one another, each with the longest walk: on a chain of 64 stages the last one alone leads further in. On
/// the way in stand as many "and"s or "or"s as the table has room for.
fn deepest(kind: u8, joining: u8) -> Setup {
    let image = Image::new(64, |s| 1 << (s + 1).min(63)).with(vec![1 << 63]).with(vec![all(63)]);
    let two_operands = kind == AR || kind == EU;
    let joins = if two_operands { 23 } else { 25 };
    let mut table = Table::default();
    let mut inside = table.constant(TRUE);
    for level in 0..4 {
        for _ in 0..joins / 4 + usize::from(level < joins % 4) {
            let other = table.constant(if joining == AND { TRUE } else { FALSE });
            inside = table.join(joining, inside, other);
        }
        // Only the last stage has a proof of the way in; for EG every other stage has a proof without it.
        let at_end = table.unary(if kind == EG { 1 } else { 0 }, X[1]);
        inside = table.join(if kind == EG { OR } else { AND }, at_end, inside);
        let start = if level == 3 { X[0] } else { 0 };
        inside = if two_operands {
            let always = table.constant(TRUE);
            let (a, b) = if kind == AR { (inside, always) } else { (always, inside) };
            table.two(kind, a, b, 1, start)
        } else {
            table.one(kind, inside, 1, start)
        };
    }
    (image, table)
}

fn deep(work: &mut Work) {
    for (kind, modality) in [(AF, "AF"), (EG, "EG"), (AR, "AR"), (EU, "EU")] {
        for (joining, joint) in [(AND, "and"), (OR, "or")] {
            let setup = deepest(kind, joining);
            let certificate = certificate(&setup);
            let of = format!("4 {}, walks of 64, \"{}\"s", modality, joint);
            work.piece(&format!("verdict {}", of), VERDICT, 0, &setup, &[]);
            work.piece(&format!("check {}", of), CHECK, 0, &setup, &certificate);
            work.piece(&format!("write {}", of), WRITE, PROGRAM_BUFFER, &setup, &[]);
        }
    }
    work.piece("verdict n 64, nesting 4, names all outer", VERDICT, 0, &nested(64, 4, Outer::Every), &[]);
}

fn main() {
    let args: Vec<String> = env::args().collect();
    let mut work = Work::default();
    match (args.get(1).map(String::as_str), args.len()) {
        (Some("speed"), 3) => {
            checks(&mut work);
            verdicts(&mut work);
            writings(&mut work);
            reports(&mut work);
        }
        (Some("stack"), 3) => deep(&mut work),
        _ => {
            eprintln!("usage: work speed FILE, or work stack FILE");
            process::exit(2);
        }
    }
    if let Err(why) = fs::write(&args[2], &work.bytes) {
        eprintln!("work: {}: {}", args[2], why);
        process::exit(2);
    }
}
