//! Times the proved library beside plain Rust, in one process and on the same
//! sheets. Exit status 1 if their results disagree.

use bench::plate::{self, MOST, WORKSPACE};
use bench::proved::{self, Desk};
use bench::sheets::{families, Case, Family, Random, SIZES};
use bench::{baseline, listing, masks};
use std::array::from_fn;
use std::hint::black_box;
use std::process::ExitCode;
use std::time::{Duration, Instant};

const SHEETS: usize = 200;
const ROUNDS: usize = 40;
const OUTPUT: usize = 12 + 8 * MOST;

type Make = fn(&[u8], Option<&[u8]>, &mut [u8], &mut [u16]) -> Result<usize, u8>;
type List = fn(&[u8], &mut [u8]) -> Option<usize>;
/// Rust with the proved library's loops, the proved library, and the other Rust
/// maker.
const MAKERS: [Make; 3] = [baseline::make, proved::make, masks::make];

/// The buffers that a making is lent: lengths, and what the workspace comes filled
/// with.
#[derive(Clone, Copy)]
struct Lent {
    output: usize,
    workspace: usize,
    filled: u16,
}

/// What a making leaves: the answer; the plate; whether the rest is as documents
/// 01 and 02 (c) say.
fn outcome(make: Make, case: &Case, lent: Lent) -> (Result<usize, u8>, Vec<u8>, bool) {
    let mut output = vec![0xa5; lent.output];
    let mut workspace = vec![lent.filled; lent.workspace];
    let ranks = case.ranks.as_deref();
    let answer = make(&case.sheet, ranks, &mut output, &mut workspace);
    let (written, left) = match answer {
        Ok(written) => (written, 0),
        Err(61) => (0, 0),
        Err(_) => (0, lent.filled),
    };
    let clean = written <= output.len()
        && output[written..].iter().all(|&byte| byte == 0xa5)
        && workspace.iter().all(|&number| number == left);
    output.truncate(written);
    (answer, output, clean)
}

/// Whether all makers agree on a sheet and its rank list.
fn agree(case: &Case, lent: Lent) -> bool {
    let outcomes = MAKERS.map(|make| outcome(make, case, lent));
    outcomes
        .iter()
        .all(|other| *other == outcomes[0] && other.2)
}

/// A sheet or a rank list with a few bytes changed, now and then cut or
/// lengthened.
fn damaged(random: &mut Random, bytes: &[u8]) -> Vec<u8> {
    let mut bytes = bytes.to_vec();
    for _ in 0..random.within(0, 2) {
        let mut reach = bytes.len() - 1;
        if random.within(0, 1) == 0 {
            reach = reach.min(9);
        }
        bytes[random.within(0, reach)] = random.within(0, 255) as u8;
    }
    if random.within(0, 7) == 0 {
        bytes.resize(random.within(0, bytes.len() + 6), 0);
    }
    bytes
}

/// How many of the family's sheets and rank lists, whole and damaged, makers
/// disagree on.
fn disagreements(family: &Family) -> usize {
    let mut random = Random::new(77);
    let mut count = 0;
    for case in &family.cases {
        let least = 12 + 8 * family.points;
        let enough = Lent {
            output: OUTPUT,
            workspace: WORKSPACE,
            filled: [0, 1, 0x5a5a, 0xffff][random.within(0, 3)],
        };
        let scarce = Lent {
            output: random.within(least - 1, least + 20),
            workspace: random.within(WORKSPACE - 1, WORKSPACE + 8),
            ..enough
        };
        let mut broken = |bytes: &Vec<u8>| damaged(&mut random, bytes);
        let broken = Case {
            sheet: broken(&case.sheet),
            ranks: case.ranks.as_ref().map(broken),
        };
        for (case, lent) in [(case, enough), (case, scarce), (&broken, scarce)] {
            count += usize::from(!agree(case, lent));
        }
    }
    count
}

/// Microseconds a sheet for each of N calls, every sheet at its best round. The
/// calls take turns, and each round begins with another one. In a round of turns
/// each call has another sheet: of two calls that share code, the second would
/// else run with its branches predicted by the first.
fn times<const N: usize>(sheets: usize, mut call: impl FnMut(usize, usize)) -> [f64; N] {
    let mut best = vec![[Duration::MAX; N]; sheets];
    for round in 0..ROUNDS {
        for step in 0..sheets {
            for turn in 0..N {
                let which = (round + turn) % N;
                let sheet = (step + which * sheets / N) % sheets;
                let start = Instant::now();
                call(which, sheet);
                best[sheet][which] = start.elapsed().min(best[sheet][which]);
            }
        }
    }
    from_fn(|which| {
        let whole: Duration = best.iter().map(|best| best[which]).sum();
        whole.as_secs_f64() * 1e6 / sheets as f64
    })
}

/// The times of the makers, in their order.
fn maker_times(family: &Family) -> [f64; 3] {
    let mut output = [0; OUTPUT];
    let mut workspace = vec![0; WORKSPACE];
    times(family.cases.len(), |which, at| {
        let make = black_box(MAKERS[which]);
        let case = black_box(&family.cases[at]);
        let ranks = case.ranks.as_deref();
        let _ = black_box(make(&case.sheet, ranks, &mut output, &mut workspace));
    })
}

/// What the other calls are given: a sheet, its plate, and a desk that has it
/// loaded.
struct Given {
    sheet: Vec<u8>,
    plate: Vec<u8>,
    desk: Desk,
}

impl Given {
    fn new(sheet: Vec<u8>) -> Given {
        let mut workspace = vec![0; WORKSPACE];
        let mut plate = vec![0; OUTPUT];
        let written = proved::make(&sheet, None, &mut plate, &mut workspace).expect("a good sheet");
        plate.truncate(written);
        let (desk, loaded) = proved::load(&sheet, &mut workspace);
        assert!(loaded);
        Given { sheet, plate, desk }
    }

    /// The plate's inside section, as a list to be marked.
    fn list(&self) -> &[u8] {
        let rest = &self.plate[self.sheet.len()..];
        &rest[..1 + usize::from(rest[0])]
    }

    /// The plate's listing, and the buffer that it is written into.
    fn listed(&self, list: List) -> (Option<usize>, [u8; listing::ROOM]) {
        let mut text = [0; listing::ROOM];
        (list(&self.plate, &mut text), text)
    }

    /// Whether no call is refused, the list is valid and best, and the listing is
    /// the same in Rust.
    fn accepted(&self) -> bool {
        let list = self.list();
        let listed = self.listed(proved::listing);
        proved::check_sheet(&self.sheet)
            && proved::read_plate(&self.plate) == Some(&list[1..])
            && proved::mark(self.desk.fork(), list).1 == Some((list[0].into(), 0))
            && listed.0.is_some()
            && listed == self.listed(listing::listing)
    }
}

/// The times of check_sheet, make and listing, in Rust and proved, and of the
/// proved read_plate, mark and load.
fn call_times(given: &[Given]) -> [f64; 9] {
    let mut workspace = vec![0; WORKSPACE];
    let mut output = [0; OUTPUT];
    let mut text = [0; listing::ROOM];
    times(given.len(), |which, at| {
        let given = black_box(&given[at]);
        let (sheet, plate) = (&given.sheet, &given.plate);
        match which {
            0 => _ = black_box(plate::check_sheet(sheet)),
            1 => _ = black_box(proved::check_sheet(sheet)),
            2 => _ = black_box(baseline::make(sheet, None, &mut output, &mut workspace)),
            3 => _ = black_box(proved::make(sheet, None, &mut output, &mut workspace)),
            4 => _ = black_box(listing::listing(plate, &mut text)),
            5 => _ = black_box(proved::listing(plate, &mut text)),
            6 => _ = black_box(proved::read_plate(plate)),
            7 => _ = black_box(proved::mark(given.desk.fork(), given.list())),
            _ => _ = black_box(proved::load(sheet, &mut workspace)),
        }
    })
}

/// Prints a family's table of the other calls.
fn print_calls(family: &str, [beside @ .., read, mark, load]: [f64; 9]) {
    println!("{family:<27}{:>8}{:>8}{:>7}", "Rust", "proved", "/Rust");
    let names = ["check_sheet", "make", "listing"];
    for (name, pair) in names.iter().zip(beside.chunks(2)) {
        let [rust, proved] = [pair[0], pair[1]];
        let ratio = proved / rust;
        println!("{name:<27}{rust:>8.2}{proved:>8.2}{ratio:>7.2}");
    }
    for (name, time) in [("read_plate", read), ("mark", mark), ("load", load)] {
        println!("{name:<27}{:>8}{time:>8.2}", "");
    }
}

/// Prints a family's line of the table.
fn print_makers(family: &Family, [rust, proved, masks]: [f64; 3]) {
    println!(
        "{:<21}{:>6}{rust:>8.2}{proved:>8.2}{:>7.2}{masks:>8.2}{:>8.2}",
        family.name,
        family.points,
        proved / rust,
        proved / masks,
    );
}

/// Prints how the times of the random family grow with the number of points.
fn print_growth(random: &[(usize, [f64; 3])]) {
    for pair in random.windows(2) {
        let [(less, before), (more, after)] = [pair[0], pair[1]];
        let [rust, proved] = [after[0] / before[0], after[1] / before[1]];
        print!("growth, random, {less} to {more} points: Rust x{rust:.1}, ");
        println!("proved x{proved:.1} (n³ would be x8)");
    }
}

/// Times the makers on all families, and prints the table; how often they
/// disagree.
fn makers() -> usize {
    println!("Making a plate, microseconds a sheet: {SHEETS} sheets a family, each at the best");
    println!("of {ROUNDS} rounds, the makers by turns in one process. Buffers are not cleared");
    println!("before a call: the workspace is zero, as the call before left it. \"Rust\" has");
    println!("the proved library's loops; \"masks\" is another Rust maker of the same");
    println!("recurrence, which fills the whole table and keeps sets of points as bits.");
    println!("/Rust and /masks are the proved maker's time divided by theirs. \"up left,");
    println!("ranked\" has the sheets of \"staircase up left\" with rank lists; there the ranks");
    println!("decide most of the plates.");
    println!();
    println!(
        "{:<21}{:>6}{:>8}{:>8}{:>7}{:>8}{:>8}",
        "family", "points", "Rust", "proved", "/Rust", "masks", "/masks"
    );
    let mut wrong = 0;
    let mut random = Vec::new();
    for n in SIZES {
        for family in families(n, SHEETS) {
            wrong += disagreements(&family);
            let best = maker_times(&family);
            print_makers(&family, best);
            if family.name == "random" {
                random.push((n, best));
            }
        }
        println!();
    }
    print_growth(&random);
    wrong
}

/// Times the other calls, and make beside them, on three families, and prints the
/// tables; how many sheets get a wrong answer.
fn other_calls() -> usize {
    println!("Other calls, on the dense sheets, the sparse ones and the ridge lines of {MOST}");
    println!("points, and make again, by turns with them. listing and read_plate: the plate");
    println!("that was made. mark: that plate's inside list, at a desk with the sheet loaded;");
    println!("it is valid, so every two points are tested. load: the sheet, at a fresh desk.");
    let mut wrong = 0;
    let timed = |family: &Family| ["dense", "sparse", "ridge lines"].contains(&family.name);
    for family in families(MOST, SHEETS).filter(timed) {
        println!();
        let sheets = family.cases.into_iter().map(|case| case.sheet);
        let given: Vec<Given> = sheets.map(Given::new).collect();
        print_calls(family.name, call_times(&given));
        wrong += given.iter().filter(|given| !given.accepted()).count();
    }
    wrong
}

fn main() -> ExitCode {
    let mut wrong = makers();
    println!();
    wrong += other_calls();
    println!();
    println!("disagreements: {wrong}");
    ExitCode::from(u8::from(wrong != 0))
}
