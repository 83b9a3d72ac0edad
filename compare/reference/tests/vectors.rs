//! The reference against the vectors, `crates/conformance/data/*.txt`, against jobs with their expected lines, the pairs NAME.job
//! and NAME.out in `examples` and in `crates/conformance/data/suppliers`, with those for the supplier, NAME.job and NAME.supplier
//! in `examples`, and against registers with the lines of their cheapest plans, NAME.register and NAME.cheapest in `examples`.
//! A line of a vector file: name, what is given, what is expected, separated by spaces; a table of 77 and a buffer of AA are lent.

use reference::register::Row;
use reference::{Answer, Counters, Refusal, SUPPLIERS};
use std::fs;
use std::path::PathBuf;

fn folder(name: &str) -> PathBuf {
    PathBuf::from(env!("CARGO_MANIFEST_DIR")).join("../..").join(name)
}

struct Fields<'a>(std::str::Split<'a, char>);

impl Fields<'_> {
    fn text(&mut self) -> String {
        self.0.next().expect("a field").to_string()
    }

    fn number(&mut self) -> i64 {
        self.text().parse().expect("a number")
    }

    fn bytes(&mut self) -> Vec<u8> {
        let text = self.text();
        if text == "-" {
            return Vec::new();
        }
        (0..text.len() / 2).map(|i| u8::from_str_radix(&text[2 * i..2 * i + 2], 16).expect("hexadecimal")).collect()
    }

    /// Number, part and position.
    fn refusal(&mut self) -> Refusal {
        Refusal { number: self.number() as u8, part: self.number() as u8, position: self.number() as usize }
    }

    fn table(&mut self, table: &[i64]) -> bool {
        let form = self.text();
        if form == "same" {
            return table.iter().all(|&number| number == 77);
        }
        let side = self.number() as usize + 1;
        if form == "all" {
            let (front, rest) = table.split_at(side * side);
            return front.iter().all(|&number| number == self.number()) && rest.iter().all(|&number| number == 77);
        }
        let mut check = 0u64;
        for byte in table.iter().flat_map(|number| number.to_le_bytes()) {
            check = (31 * check + byte as u64) % 2_147_483_647;
        }
        check == self.number() as u64
            && table.chunks(side).take(side).all(|row| row.iter().sum::<i64>() == self.number())
            && table[side * side..].iter().all(|&number| number == 77)
    }
}

/// The answer's number, part and position, zeros when it accepts, and its value.
fn split<T: Default>(answer: Answer<T>) -> (Refusal, T) {
    match answer {
        Ok(value) => (Refusal::default(), value),
        Err(refusal) => (refusal, T::default()),
    }
}

/// Runs `case` on each line of a file of vectors and of the file of that name with the kept lines, and prints how many there were.
fn each(file: &str, case: impl Fn(&mut Fields) -> bool) {
    for folder_of in ["crates/conformance/data", "crates/conformance/data/kept"] {
        let path = folder(folder_of).join(file);
        let text = fs::read_to_string(&path).expect("the vectors");
        let mut count = 0;
        for line in text.lines().filter(|line| !line.starts_with('#')) {
            let mut fields = Fields(line.split(' '));
            let name = fields.text();
            assert!(case(&mut fields), "{}: {name}", path.display());
            assert!(fields.0.next().is_none(), "{}: {name} has fields left", path.display());
            count += 1;
        }
        println!("{}{file}: {count} agree", if folder_of.ends_with("kept") { "kept/" } else { "" });
    }
}

#[test]
fn register() {
    each("register.txt", |f| {
        let answer = reference::register(&f.bytes());
        let refusal = answer.as_ref().err().copied().unwrap_or_default();
        if refusal != f.refusal() {
            return false;
        }
        match answer {
            Err(_) => [0; 7].iter().all(|&zero| zero == f.number()),
            Ok(register) => {
                let counts = [register.base as i64, register.choices.len() as i64, register.terms.len() as i64];
                let choices = register.choices.iter().flat_map(|choice| [choice.tank as i64, choice.minute as i64]);
                let terms = register.terms.iter().flat_map(|term| [term.mask as i64, term.low as i64]);
                let windows = register.windows.iter().flat_map(|window| [window.tank, window.from, window.to].map(i64::from));
                let windows = std::iter::once(register.windows.len() as i64).chain(windows);
                let rest = [register.day_length as i64, register.rows.len() as i64];
                let of_row = |row: &Row| std::iter::once(row.total as i64).chain(row.entries.map(i64::from)).collect::<Vec<_>>();
                let rows = register.rows.iter().flat_map(of_row);
                let highs = register.terms.iter().map(|term| term.high as i64);
                let ranges = std::iter::once(register.has_range() as i64).chain(highs);
                let mut numbers =
                    counts.into_iter().chain(choices).chain(terms).chain(windows).chain(rest).chain(rows).chain(ranges);
                numbers.all(|number| number == f.number())
            }
        }
    });
}

#[test]
fn scheme() {
    each("scheme.txt", |f| {
        let answer = reference::scheme(&f.bytes(), &f.bytes());
        let refusal = answer.as_ref().err().copied().unwrap_or_default();
        if refusal != f.refusal() {
            return false;
        }
        match answer {
            Err(_) => [0; 4].iter().all(|&zero| zero == f.number()),
            Ok(scheme) => {
                let counts = [scheme.choices, scheme.products.len(), scheme.splits.len()];
                let products =
                    scheme.products.iter().zip(&scheme.sets[scheme.choices..]).flat_map(|(&(l, r), &set)| [l, r, set as usize]);
                let splits = scheme.splits.iter().flat_map(|&(l, r)| [l, r]);
                let mut numbers = counts.into_iter().chain(products).chain(splits).chain([scheme.factor as usize]);
                numbers.all(|number| number as i64 == f.number())
            }
        }
    });
}

#[test]
fn build() {
    each("build.txt", |f| {
        let register = f.bytes();
        let mut buffer = vec![0xAA; f.number() as usize];
        let (refusal, count) = split(reference::build(&register, &mut buffer));
        refusal == f.refusal() && count as i64 == f.number() && buffer == f.bytes()
    });
}

#[test]
fn costliest() {
    each("costliest.txt", |f| {
        let (m, d) = (f.number() as u32, f.number() as u32);
        let mut buffer = vec![0xAA; f.number() as usize];
        let (refusal, count) = split(reference::costliest(m, d, &mut buffer));
        refusal == f.refusal() && count as i64 == f.number() && buffer == f.bytes()
    });
}

#[test]
fn cost() {
    each("cost.txt", |f| {
        let (refusal, cost) = split(reference::cost(&f.bytes(), &f.bytes()));
        refusal == f.refusal() && cost == f.number()
    });
}

#[test]
fn search() {
    each("search.txt", |f| {
        let (register, limit) = (f.bytes(), f.number() as u32);
        let (refusal, found) = split(reference::search(&register, limit));
        let values = [found.plan as i64, found.cost, found.visits as i64];
        refusal == f.refusal() && values.iter().all(|&value| value == f.number())
    });
}

#[test]
fn penalty() {
    each("penalty.txt", |f| {
        let (register, scheme) = (f.bytes(), f.bytes());
        let mut table = vec![77; f.number() as usize];
        let (refusal, ()) = split(reference::penalty(&register, &scheme, &mut table));
        refusal == f.refusal() && f.table(&table)
    });
}

#[test]
fn check() {
    each("check.txt", |f| {
        let (register, scheme, certificate, plan) = (f.bytes(), f.bytes(), f.bytes(), f.bytes());
        let mut table = vec![77; f.number() as usize];
        let (refusal, bound) = split(reference::check(&register, &scheme, &certificate, &plan, &mut table));
        refusal == f.refusal() && bound == f.number() && f.table(&table)
    });
}

#[test]
fn plain() {
    each("plain.txt", |f| {
        let (register, scheme, plan) = (f.bytes(), f.bytes(), f.bytes());
        let mut buffer = vec![0xAA; f.number() as usize];
        let (refusal, count) = split(reference::plain(&register, &scheme, &plan, &mut buffer));
        refusal == f.refusal() && count as i64 == f.number() && buffer == f.bytes()
    });
}

#[test]
fn job() {
    each("job.txt", |f| {
        let job = f.bytes();
        let mut table = vec![77; f.number() as usize];
        let supplier = f.number() as u8;
        // Every pair before the call; the expected pair of a supplier that is not there is the same again.
        let pair = Counters { accepted: f.number() as u32, refused: f.number() as u32 };
        let (answer, tally) = reference::job(&job, &mut table, supplier, [pair; SUPPLIERS]);
        let (refusal, outcome) = split(answer);
        let Counters { accepted, refused } = tally.get(supplier as usize).copied().unwrap_or(pair);
        let moved: Vec<usize> = (0..SUPPLIERS).filter(|&k| tally[k] != pair).collect();
        let values = [outcome.bound, outcome.cost, outcome.gap, accepted as i64, refused as i64, moved.len() as i64];
        refusal == f.refusal()
            && values.iter().all(|&value| value == f.number())
            && f.table(&table)
            && moved.iter().all(|&k| k == supplier as usize)
    });
}

type Listing = fn(&[u8], &mut [i64], &mut [u8]) -> Answer<usize>;

fn each_listing(file: &str, listing: Listing) {
    each(file, |f| {
        let job = f.bytes();
        let mut table = vec![77; f.number() as usize];
        let mut buffer = vec![0xAA; f.number() as usize];
        let (refusal, count) = split(listing(&job, &mut table, &mut buffer));
        refusal == f.refusal() && count as i64 == f.number() && buffer == f.bytes() && f.table(&table)
    });
}

#[test]
fn listing() {
    each_listing("listing.txt", reference::listing);
}

#[test]
fn supplier_listing() {
    each_listing("supplier.txt", reference::supplier_listing);
}

fn lines_of(listing: Listing, job: &[u8]) -> Vec<u8> {
    let mut buffer = vec![0; 4_096];
    let count = listing(job, &mut vec![0; 4_225], &mut buffer).expect("a buffer that is long enough");
    buffer.truncate(count);
    buffer
}

#[test]
fn feedcheck() {
    each("feedcheck.txt", |f| lines_of(reference::listing, &f.bytes()) == f.bytes());
}

/// The program `cheapest` has this visit limit.
const CHEAPEST_LIMIT: u32 = 100_000_000;

fn cheapest(register: &[u8]) -> Vec<u8> {
    let found = match reference::search(register, CHEAPEST_LIMIT) {
        Ok(found) => found,
        Err(refusal) => return format!("R {} {}\n", refusal.number, refusal.position).into_bytes(),
    };
    let choices = reference::register(register).expect("a register").choices;
    let fed = choices.iter().enumerate().filter(|(i, _)| found.plan & 1 << i != 0);
    let lines = fed.map(|(_, choice)| format!("F {} {}\n", choice.tank, choice.minute));
    lines.chain([format!("S {} {}\n", found.cost, found.visits)]).collect::<String>().into_bytes()
}

/// Compares what is printed for each file of a kind with the lines beside it.
fn each_file(name: &str, given: &str, expected: &str, printed: impl Fn(&[u8]) -> Vec<u8>) {
    let mut count = 0;
    let paths = fs::read_dir(folder(name)).expect("the files").map(|entry| entry.unwrap().path());
    for path in paths.filter(|path| path.extension().is_some_and(|e| e == given)) {
        let lines = fs::read(path.with_extension(expected)).expect("the expected lines");
        assert!(printed(&fs::read(&path).unwrap()) == lines, "{}", path.display());
        count += 1;
    }
    println!("{name}, {expected}: {count} agree");
}

#[test]
fn jobs() {
    for name in ["examples", "crates/conformance/data/suppliers"] {
        each_file(name, "job", "out", |job| lines_of(reference::listing, job));
    }
    each_file("examples", "job", "supplier", |job| lines_of(reference::supplier_listing, job));
}

#[test]
fn registers() {
    each_file("examples", "register", "cheapest", cheapest);
}
