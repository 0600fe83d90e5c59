//! A search written by hand in Rust, with no proof, as a measure for the proved one: the same rules of asking, counting and
//! barring, over the same books.
use std::hint::black_box;
use std::time::Instant;

const REPEATS: u32 = 50;
const BUDGET: u32 = 1_000_000;
/// The budget where nothing is timed.
const SMALL_BUDGET: u32 = 100_000;
/// The bytes of a tree's buffer.
const ROOM: usize = 4_096;

/// A rule or body as it is stored.
#[derive(Clone, Default)]
struct Record {
    head: usize,
    bodies: Vec<usize>,
    set: u128,
}

/// The records by number, and for each name the records that it heads.
#[derive(Default)]
struct Book {
    records: Vec<Record>,
    heads: Vec<u128>,
    in_force: u128,
}

/// A rule as it is written.
struct Rule {
    head: usize,
    bodies: Vec<Rule>,
}

fn rule(head: usize, bodies: Vec<Rule>) -> Rule {
    Rule { head, bodies }
}

impl Book {
    /// Stores a rule behind its bodies, and gives its number.
    fn store(&mut self, rule: &Rule) -> usize {
        let bodies: Vec<usize> = rule.bodies.iter().map(|body| self.store(body)).collect();
        let number = self.records.len();
        let set = bodies.iter().fold(0, |set, body| set | 1u128 << body);
        if self.heads.len() <= rule.head {
            self.heads.resize(rule.head + 1, 0);
        }
        self.heads[rule.head] |= 1 << number;
        self.records.push(Record { head: rule.head, bodies, set });
        number
    }

    fn add(&mut self, rule: Rule) {
        let number = self.store(&rule);
        self.in_force |= 1 << number;
    }
}

struct Spent;

struct Search<'b> {
    book: &'b Book,
    goal: usize,
    restart: bool,
    budget: u32,
    count: u32,
    tree: Vec<u8>,
}

impl Search<'_> {
    fn query(&mut self, set: u128, begun: &mut u64, name: usize) -> Result<bool, Spent> {
        if *begun >> name & 1 == 1 {
            return Ok(false);
        }
        if self.count == self.budget {
            return Err(Spent);
        }
        self.count += 1;
        let before = *begun;
        *begun |= 1 << name;
        let found = self.rules(set, begun, name);
        *begun = before;
        found
    }

    fn rules(&mut self, set: u128, begun: &mut u64, name: usize) -> Result<bool, Spent> {
        let mut left = set & self.book.heads[name];
        while left != 0 {
            let number = left.trailing_zeros() as usize;
            left &= left - 1;
            if self.rule(set, begun, number)? {
                return Ok(true);
            }
        }
        if !self.restart {
            return Ok(false);
        }
        let length = self.tree.len();
        self.tree.push(2);
        let found = self.query(set, begun, self.goal)?;
        if !found {
            self.tree.truncate(length);
        }
        Ok(found)
    }

    fn rule(&mut self, set: u128, begun: &mut u64, number: usize) -> Result<bool, Spent> {
        let book = self.book;
        let length = self.tree.len();
        self.tree.extend([1, number as u8]);
        for &body in &book.records[number].bodies {
            let record = &book.records[body];
            let wider = set | record.set;
            let found = if wider == set {
                self.query(set, begun, record.head)?
            } else {
                self.query(wider, &mut 0, record.head)?
            };
            if !found {
                self.tree.truncate(length);
                return Ok(false);
            }
        }
        Ok(true)
    }
}

/// Asks the name 0 once, and gives what it comes to, the number of queries and the length of the tree.
fn ask(book: &Book, restart: bool, budget: u32) -> (Result<bool, Spent>, u32, usize) {
    let mut search = Search { book, goal: 0, restart, budget, count: 0, tree: Vec::new() };
    let mut begun = 0;
    let found = search.query(book.in_force, &mut begun, 0);
    (found, search.count, black_box(&search.tree).len())
}

/// What a question comes to, as the proved program prints it.
fn shown(book: &Book, restart: bool) -> String {
    match ask(book, restart, SMALL_BUDGET) {
        (Ok(true), count, length) if length <= ROOM => format!("yes {count} {length}"),
        (Ok(true), count, length) => format!("long {count} {length}"),
        (Ok(false), count, _) => format!("no {count}"),
        (Err(Spent), count, _) => format!("spent {count}"),
    }
}

/// How long a query takes, in tenths of a nanosecond.
fn timed(book: &Book, restart: bool) -> u128 {
    let start = Instant::now();
    let queries: u64 = (0..REPEATS).map(|_| u64::from(ask(black_box(book), restart, BUDGET).1)).sum();
    start.elapsed().as_nanos() * 10 / u128::from(queries)
}

fn doubling() -> Book {
    let mut book = Book::default();
    for level in 0..30 {
        book.add(rule(level, vec![rule(level + 1, vec![]), rule(level + 1, vec![])]));
    }
    book.add(rule(30, vec![]));
    book
}

fn supposing() -> Book {
    let mut book = Book::default();
    let body = |level| rule(level + 1, vec![rule(63, vec![])]);
    for level in 0..24 {
        book.add(rule(level, vec![body(level), body(level)]));
    }
    book.add(rule(24, vec![]));
    book
}

fn layers() -> Book {
    let mut book = Book::default();
    for layer in 0..15 {
        for head in [2 * layer, 2 * layer + 1] {
            for body in [2 * layer + 2, 2 * layer + 3] {
                book.add(rule(head, vec![rule(body, vec![])]));
            }
        }
    }
    book.heads.resize(64, 0);
    book
}

fn main() {
    let time = std::env::args().nth(1).is_some();
    for (name, book) in [("doubling", doubling()), ("supposing", supposing()), ("layers", layers())] {
        for (words, restart) in [("", false), (" with restart", true)] {
            if time {
                let tenths = timed(&book, restart);
                println!("{name}{words}: {}.{} ns a query", tenths / 10, tenths % 10);
            } else {
                println!("{name}{words}: {}", shown(&book, restart));
            }
        }
    }
}
