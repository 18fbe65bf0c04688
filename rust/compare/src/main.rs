//! Compares the proved library, asked over the driver, with the second implementation:
//! `compare [--cases N] [--seed S] [--call NAME]`, or `compare --case SEED` for one case alone, `compare --export SEED` for one export.

use std::process::ExitCode;
use std::sync::mpsc::{sync_channel, Receiver};
use std::thread;
use std::time::Instant;

use compare::case::{beside, call_of, case};
use compare::elements::whole_export;
use compare::expected::expected;
use compare::tally::{Sizes, Tally};
use second::generator::Random;
use wire::{Call, Driver, Reply, Request};

/// The cases that are sent to the driver at once.
const BATCH: u64 = 256;

/// From so many cases on, each call must have come to every outcome that the header lists.
const LONG: u64 = 100_000;

/// For so many cases each, one export is compared whole, element by element.
const CASES_AN_EXPORT: u64 = 2_000;

/// After so many cases each, a line tells how far it is.
const TOLD: u64 = 500_000;

/// The differences that are shown; further ones are counted.
const SHOWN: u64 = 5;

/// The bytes that are shown of a table, a marking, a run or an output.
const SHOWN_BYTES: usize = 600;

/// What the words of the command ask for.
struct Wanted {
    cases: u64,
    seed: u64,
    call: Option<Call>,
    one: Option<u64>,
    export: Option<u64>,
}

/// Reads the words of the command.
fn wanted() -> Option<Wanted> {
    let mut wanted = Wanted {
        cases: 200_000,
        seed: 2026,
        call: None,
        one: None,
        export: None,
    };
    let mut words = std::env::args().skip(1);
    while let Some(word) = words.next() {
        let value = words.next()?;
        match word.as_str() {
            "--cases" => wanted.cases = value.parse().ok()?,
            "--seed" => wanted.seed = value.parse().ok()?,
            "--call" => wanted.call = Some(Call::by_name(&value)?),
            "--case" => wanted.one = Some(value.parse().ok()?),
            "--export" => wanted.export = Some(value.parse().ok()?),
            _ => return None,
        }
    }
    Some(wanted)
}

/// A case with what it must come to.
struct Case {
    /// How the command names it.
    name: String,
    request: Request,
    expected: Reply,
}

/// A request as a case.
fn made(name: String, request: Request) -> Case {
    let expected = expected(&request);
    Case {
        name,
        request,
        expected,
    }
}

/// Makes the case of a seed, and that of `lossy` beside it, if there is one; where one call is wanted, what is of that call.
fn made_cases(seed: u64, call: Option<Call>) -> Vec<Case> {
    let requests = [case(seed)].into_iter().chain(beside(seed));
    let requests = requests.filter(|request| call.is_none_or(|call| call == request.call));
    requests
        .map(|request| made(format!("case {seed}"), request))
        .collect()
}

/// Makes a case of every element of a seed's export.
fn made_export(seed: u64) -> Vec<Case> {
    let requests = whole_export(seed).into_iter();
    requests
        .map(|request| made(format!("export {seed}"), request))
        .collect()
}

/// The seed of a case by its place in the comparison; where one call is wanted, of a case of that call, which for `lossy` is beside one of
/// `judge`.
fn case_seed(seed: u64, call: Option<Call>, place: u64) -> u64 {
    let call = call.map(|call| match call {
        Call::Lossy => Call::Judge,
        call => call,
    });
    let mut random = Random::new(seed.wrapping_add(place.wrapping_mul(0xd134_2543_de82_ef95)));
    loop {
        let drawn = random.draw();
        if call.is_none_or(|call| call == call_of(drawn)) {
            return drawn;
        }
    }
}

/// Bytes as text, cut where they are many.
fn shown(bytes: &[u8]) -> String {
    let digits = bytes.iter().take(SHOWN_BYTES).map(|b| format!("{b:02x}"));
    let text: String = digits.collect();
    let more = if bytes.len() > SHOWN_BYTES { ".." } else { "" };
    format!("{} bytes {text}{more}", bytes.len())
}

/// One reply as text, without what it shares with the other.
fn reply_text(reply: &Reply, other: &Reply) -> String {
    let mut text = format!(
        "number {} place {} by {} values {:?} kept {}",
        reply.number, reply.place, reply.by, reply.values, reply.kept
    );
    if reply.given != other.given {
        text.push_str(&format!("\n    given {}", shown(&reply.given)));
    }
    if reply.lent != other.lent {
        text.push_str(&format!("\n    lent {}", shown(&reply.lent)));
    }
    text
}

/// A case with both replies as text.
fn case_text(case: &Case, got: &Reply) -> String {
    let Request {
        call,
        table,
        given,
        lent,
        numbers,
        values,
    } = &case.request;
    format!(
        "{}: {}\n  table {}\n  given {}\n  lent {}\n  numbers {numbers:?} values {values:?}\n  second  {}\n  library {}",
        case.name,
        call.name(),
        shown(table),
        shown(given),
        shown(lent),
        reply_text(&case.expected, got),
        reply_text(got, &case.expected),
    )
}

/// The cases of some seeds, and how many seeds those are.
struct Batch {
    seeds: u64,
    cases: Vec<Case>,
}

/// Starts a thread that makes every `step`-th batch from the first on.
fn maker(wanted: &Wanted, first: u64, step: u64) -> Receiver<Batch> {
    let (to, from) = sync_channel(2);
    let (cases, seed, call) = (wanted.cases, wanted.seed, wanted.call);
    thread::spawn(move || {
        let mut place = first * BATCH;
        while place < cases {
            let places = place..cases.min(place + BATCH);
            let batch = Batch {
                seeds: places.end - places.start,
                cases: places
                    .flat_map(|at| made_cases(case_seed(seed, call, at), call))
                    .collect(),
            };
            if to.send(batch).is_err() {
                return;
            }
            place += step * BATCH;
        }
    });
    from
}

/// What has been compared so far.
#[derive(Default)]
struct Compared {
    tally: Tally,
    sizes: Sizes,
    cases: u64,
    exports: u64,
    elements: u64,
    differences: u64,
}

impl Compared {
    /// Asks the driver for the cases of a batch, and counts and shows what differs.
    fn take(&mut self, batch: &[Case], driver: &mut Driver) -> std::io::Result<()> {
        let requests: Vec<Request> = batch.iter().map(|case| case.request.clone()).collect();
        for (case, got) in batch.iter().zip(driver.ask_all(&requests)?) {
            self.tally.count(&case.request, &case.expected);
            self.sizes.count(&case.request, &case.expected);
            if got != case.expected {
                self.differences += 1;
                if self.differences <= SHOWN {
                    println!("difference in {}", case_text(case, &got));
                }
            }
        }
        Ok(())
    }

    /// Compares the cases of a batch, and now and then tells how far it is; those beside others are not counted.
    fn take_cases(&mut self, batch: &Batch, driver: &mut Driver) -> std::io::Result<()> {
        let told = self.cases / TOLD;
        self.take(&batch.cases, driver)?;
        self.cases += batch.seeds;
        if self.cases / TOLD > told {
            eprintln!("{} cases, {} differences", self.cases, self.differences);
        }
        Ok(())
    }

    /// Compares every element of a seed's export.
    fn take_export(&mut self, seed: u64, driver: &mut Driver) -> std::io::Result<()> {
        let batch = made_export(seed);
        self.exports += 1;
        self.elements += batch[0].expected.values[0];
        self.take(&batch, driver)
    }

    /// Prints what was seen; true if nothing differed and nothing was missed.
    fn told(&self, wanted: &Wanted, seconds: f64) -> bool {
        let (missed, unlisted) = (self.tally.missed(wanted.call), self.tally.unlisted());
        print!("{}{}", self.tally.table(), self.sizes.text());
        missed
            .iter()
            .chain(&unlisted)
            .for_each(|what| println!("{what}"));
        let (cases, differences) = (self.cases, self.differences);
        let seed = wanted.seed;
        println!(
            "exports: {}, whole, of {} elements",
            self.exports, self.elements
        );
        println!("seed {seed}: {cases} cases in {seconds:.1} s, {differences} differences");
        let seen = unlisted.is_empty() && (wanted.cases < LONG || missed.is_empty());
        cases == wanted.cases && differences == 0 && seen
    }
}

/// Compares all cases, which threads make meanwhile, and tells what was seen.
fn compare_all(wanted: &Wanted, driver: &mut Driver) -> std::io::Result<bool> {
    let begun = Instant::now();
    let threads = thread::available_parallelism().map_or(1, |n| n.get().min(4)) as u64;
    let makers: Vec<_> = (0..threads).map(|n| maker(wanted, n, threads)).collect();
    let mut compared = Compared::default();
    for made in makers.iter().cycle() {
        let Ok(batch) = made.recv() else {
            break;
        };
        compared.take_cases(&batch, driver)?;
    }
    if wanted.call.is_none_or(|call| call == Call::Element) {
        for place in 0..wanted.cases / CASES_AN_EXPORT {
            compared.take_export(case_seed(wanted.seed, None, place), driver)?;
        }
    }
    Ok(compared.told(wanted, begun.elapsed().as_secs_f64()))
}

/// Compares one case, and the one beside it, and shows them.
fn compare_one(seed: u64, driver: &mut Driver) -> std::io::Result<bool> {
    let mut all_same = true;
    for case in made_cases(seed, None) {
        let got = driver.ask(&case.request)?;
        println!("{}", case_text(&case, &got));
        let same = got == case.expected;
        println!("{}", if same { "no difference" } else { "difference" });
        all_same &= same;
    }
    Ok(all_same)
}

/// Compares every element of one export.
fn compare_export(seed: u64, driver: &mut Driver) -> std::io::Result<bool> {
    let mut compared = Compared::default();
    compared.take_export(seed, driver)?;
    println!(
        "{} elements, {} differences",
        compared.elements, compared.differences
    );
    Ok(compared.differences == 0)
}

fn main() -> ExitCode {
    let Some(wanted) = wanted() else {
        eprintln!(
            "usage: compare [--cases N] [--seed S] [--call NAME], compare --case SEED, or compare --export SEED"
        );
        return ExitCode::from(2);
    };
    let compared = Driver::open().and_then(|mut driver| match (wanted.one, wanted.export) {
        (Some(seed), _) => compare_one(seed, &mut driver),
        (None, Some(seed)) => compare_export(seed, &mut driver),
        (None, None) => compare_all(&wanted, &mut driver),
    });
    match compared {
        Ok(true) => ExitCode::SUCCESS,
        Ok(false) => ExitCode::FAILURE,
        Err(error) => {
            eprintln!("compare: {error}");
            ExitCode::from(2)
        }
    }
}
