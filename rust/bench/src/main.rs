//! Measures the proved library and the second implementation on the same input in one run, and prints ratios. Nothing here passes
//! or fails by time; each call's answers are compared once before it is measured.

mod clock;
mod export;
mod inputs;
#[allow(unsafe_code)]
mod library;
#[allow(unsafe_code)]
mod processor;

use std::hint::black_box;

use inputs::{
    changeover, full, longest_list, most_conditions, most_events, net_a, typical, wide, Input, Size,
};
use library::Answer;
use second::calls;
use second::refusal::Answer as Second;
use second::unfolding::Marker;

/// A time in a unit that suits it.
fn time_text(nanoseconds: f64) -> String {
    match nanoseconds {
        t if t < 1e3 => format!("{t:.0} ns"),
        t if t < 1e6 => format!("{:.1} µs", t / 1e3),
        t => format!("{:.2} ms", t / 1e6),
    }
}

/// Prints the head of a table.
fn head(title: &str, columns: &str) {
    println!("\n## {title}\n\n| {columns} |");
    println!("|{}", "---|".repeat(columns.split('|').count()));
}

/// Both implementations worked, or neither did, with the same refusal.
fn same<T>(library: Answer, second: &Second<T>) -> bool {
    match second {
        Ok(_) => library.number == 0,
        Err(r) => (library.number, library.place) == (u64::from(r.number), r.place as u64),
    }
}

/// What one call on one input took.
struct Measured {
    library: f64,
    second: f64,
}

/// Measures a call that writes to an output of elements: the library's and the second's, once compared.
fn measured<T: Clone + PartialEq + Default, U>(
    length: usize,
    library: impl Fn(&mut [T]) -> Answer,
    second: impl Fn(&mut [T]) -> Second<U>,
) -> Measured {
    let (mut one, mut other) = (vec![T::default(); length], vec![T::default(); length]);
    let agreed = same(library(&mut one), &second(&mut other)) && one == other;
    assert!(agreed, "the two implementations differ: run the comparison");
    let mut by_library = || {
        black_box(library(black_box(&mut one)));
    };
    let mut by_second = || {
        black_box(second(black_box(&mut other)).is_ok());
    };
    let (library, second) = clock::both(&mut by_library, &mut by_second);
    Measured { library, second }
}

fn judge(input: &Input) -> Measured {
    let table = &input.table;
    measured(
        0,
        |_: &mut [u8]| library::judge(table),
        |_| calls::judge(table),
    )
}

/// Fires the run's first event at the start; the marking is put back before each call, on both sides.
fn fire(input: &Input) -> Measured {
    let (table, event) = (&input.table, input.run[0]);
    let mut start = vec![0; 256];
    let conditions = calls::start(table, &mut start).unwrap_or(0);
    start.truncate(conditions);
    measured(
        conditions,
        |marking: &mut [u8]| {
            marking.copy_from_slice(&start);
            library::fire(table, marking, event)
        },
        |marking| {
            marking.copy_from_slice(&start);
            calls::fire_event(table, marking, event)
        },
    )
}

fn replay(input: &Input) -> Measured {
    let Input { table, run, .. } = input;
    measured(
        256,
        |end: &mut [u8]| library::replay(table, run, end),
        |end| calls::replay(table, run, end),
    )
}

fn lift(input: &Input) -> Measured {
    let Input { table, run, .. } = input;
    measured(
        run.len(),
        |out: &mut [u16]| library::lift(table, run, out),
        |out| calls::lift(table, run, out),
    )
}

/// The lifted run of an input's run; its own events where it does not lift.
fn lifted(input: &Input) -> Vec<u16> {
    let mut lifted = input.run.clone();
    let _ = calls::lift(&input.table, &input.run, &mut lifted);
    lifted
}

fn project(input: &Input) -> Measured {
    let (table, lifted) = (&input.table, lifted(input));
    measured(
        lifted.len(),
        |out: &mut [u16]| library::project(table, &lifted, out),
        |out| calls::project(table, &lifted, out),
    )
}

/// The last step of the lifted run, whose lists are asked.
fn last_lifted(input: &Input) -> u16 {
    lifted(input).last().copied().unwrap_or(0)
}

/// Room for the most markers of an event, for the longest list, and for the longest text of an element.
const MARKERS: usize = 16;
const LIST: usize = 2_048;
const ELEMENT: usize = 256;

/// A marker as the calls for C number it.
fn word(marker: &Marker) -> u32 {
    match marker {
        Marker::Start => u32::MAX,
        Marker::ByEvent(event) => u32::from(*event),
    }
}

fn event_origin(input: &Input) -> Measured {
    let (table, number) = (&input.table, last_lifted(input));
    measured(
        MARKERS,
        |out: &mut [u32]| library::event_origin(table, number, out),
        |out| {
            let origin = calls::event_behind(table, number)?;
            for (to, marker) in out.iter_mut().zip(&origin.markers) {
                *to = word(marker);
            }
            Ok(())
        },
    )
}

/// The way back from the event and the markers behind that step.
fn event_number(input: &Input) -> Measured {
    let (table, number) = (&input.table, last_lifted(input));
    let origin = calls::event_behind(table, number).expect("the run lifts");
    let words: Vec<u32> = origin.markers.iter().map(word).collect();
    measured(
        1,
        |out: &mut [u16]| library::event_number(table, origin.event, &words, &mut out[0]),
        |out| {
            out[0] = calls::event_number(table, origin.event, &origin.markers)?;
            Ok(())
        },
    )
}

fn unfolded_pre(input: &Input) -> Measured {
    let (table, number) = (&input.table, last_lifted(input));
    measured(
        LIST,
        |out: &mut [u16]| library::unfolded_pre(table, number, out),
        |out| calls::unfolded_preconditions(table, number, out),
    )
}

fn unfolded_post(input: &Input) -> Measured {
    let (table, number) = (&input.table, last_lifted(input));
    measured(
        LIST,
        |out: &mut [u16]| library::unfolded_post(table, number, out),
        |out| calls::unfolded_postconditions(table, number, out),
    )
}

/// Fires the lifted run's first event at the unfolded start; the marking is put back before each call, on both sides.
fn unfolded_fire(input: &Input) -> Measured {
    let (table, number) = (&input.table, lifted(input)[0]);
    let mut start = vec![0; 65_535];
    let conditions = calls::unfolded_start(table, &mut start).unwrap_or(0);
    start.truncate(conditions);
    measured(
        conditions,
        |marking: &mut [u8]| {
            marking.copy_from_slice(&start);
            library::unfolded_fire(table, marking, number)
        },
        |marking| {
            marking.copy_from_slice(&start);
            calls::fire_unfolded(table, marking, number)
        },
    )
}

/// The last element, which is found by walking all unfolded events.
fn last_element(input: &Input) -> Measured {
    let table = &input.table;
    let last = calls::element_count(table).map_or(0, |count| count - 1);
    measured(
        ELEMENT,
        |out: &mut [u8]| library::element(table, last, out),
        |out| calls::element(table, last, out),
    )
}

/// A call that is measured.
type Call = (&'static str, fn(&Input) -> Measured);

const PLAYED: [Call; 3] = [("judge", judge), ("fire", fire), ("replay", replay)];

const UNFOLDED: [Call; 8] = [
    ("lift", lift),
    ("project", project),
    ("event_origin", event_origin),
    ("event_number", event_number),
    ("unfolded_pre", unfolded_pre),
    ("unfolded_post", unfolded_post),
    ("unfolded_fire", unfolded_fire),
    ("element, the last", last_element),
];

/// Prints the ratios of calls on inputs.
fn ratios(calls: &[Call], inputs: &[Input]) {
    for (name, call) in calls {
        for input in inputs {
            let Measured { library, second } = call(input);
            let over = if library > second { " (over 1)" } else { "" };
            println!(
                "| {name} | {} | {} | {} | {:.4}{over} |",
                input.name,
                time_text(library),
                time_text(second),
                library / second
            );
        }
    }
}

/// The sum of all bytes, as plainly as it can be written.
fn sum(bytes: &[u8]) -> u64 {
    bytes.iter().map(|byte| u64::from(*byte)).sum()
}

/// A sum in which each byte waits for the one before, so that it is worked byte by byte.
fn sum_in_turn(bytes: &[u8]) -> u64 {
    let add = |sum: u64, byte: &u8| (sum ^ 1).wrapping_add(u64::from(*byte));
    bytes.iter().fold(0, add)
}

/// Prints what judging costs beside a sum of the same bytes.
fn judge_and_sums(inputs: &[Input]) {
    for input in inputs {
        let table = &input.table;
        let mut judged = || {
            black_box(library::judge(black_box(table)));
        };
        let mut summed = || {
            black_box(sum(black_box(table)));
        };
        let mut in_turn = || {
            black_box(sum_in_turn(black_box(table)));
        };
        let (judge, plain) = clock::both(&mut judged, &mut summed);
        let (again, turn) = clock::both(&mut judged, &mut in_turn);
        let judge = judge.min(again);
        println!(
            "| {} | {} | {:.2} | {} | {:.1} | {} | {:.1} |",
            table.len(),
            time_text(judge),
            judge / table.len() as f64,
            time_text(plain),
            judge / plain,
            time_text(turn),
            judge / turn
        );
    }
}

/// Prints how the cost of a call grows with a size.
fn growth(calls: &[Call], inputs: &[(usize, Input)]) {
    for (name, call) in calls {
        for (size, input) in inputs {
            let Measured { library, second } = call(input);
            println!(
                "| {name} | {size} | {} | {:.1} ns | {} | {:.4} |",
                time_text(library),
                library / *size as f64,
                time_text(second),
                library / second
            );
        }
    }
}

/// How many unfolded events a table has.
fn unfolded_events(input: &Input) -> usize {
    calls::unfolded_counts(&input.table).map_or(0, |counts| counts.events as usize)
}

/// The run of an input plays, so that work is measured and no refusal.
fn plays(input: &Input) -> bool {
    calls::replay(&input.table, &input.run, &mut [0; 256]).is_ok()
}

/// The run of an input lifts.
fn lifts(input: &Input) -> bool {
    calls::lift(&input.table, &input.run, &mut input.run.clone()).is_ok()
}

/// Prints what the figures were measured on.
fn print_machine() {
    let load = std::fs::read_to_string("/proc/loadavg").unwrap_or_default();
    let load: Vec<&str> = load.split_whitespace().take(3).collect();
    let cores = std::thread::available_parallelism().map_or(1, |n| n.get());
    let machine = std::env::consts::ARCH;
    println!("machine: {machine}, {cores} cores, load {}", load.join(" "));
    let archive = option_env!("DOVETRELLIS_ARCHIVE").unwrap_or("none");
    let made = match machine {
        "x86_64" => "as it is shipped",
        _ => "the shipped archive's LLVM module, compiled for this machine",
    };
    println!("archive: {archive}, {made}");
}

/// Every measured call on small, typical and largest inputs.
fn print_ratios() {
    let played = [net_a(), typical(500), wide(), full(256, 4_096)];
    let unfolded = [
        net_a(),
        typical(500),
        wide(),
        full(256, 4_096),
        most_events(),
        most_conditions(),
        longest_list(),
    ];
    assert!(played.iter().all(plays) && unfolded.iter().all(lifts));
    head(
        "The library against the second implementation",
        "call | input | library | second | ratio",
    );
    ratios(&PLAYED, &played);
    ratios(&UNFOLDED, &unfolded);
}

/// Judging on tables of growing size.
fn print_judging() {
    head(
        "Judging against a sum of the same bytes",
        "bytes | judge | ns a byte | plain sum | ratio | sum in turn | ratio",
    );
    judge_and_sums(&[net_a(), typical(0)]);
    judge_and_sums(&[1, 4, 16, 64, 256].map(|events| full(events, 1)));
}

/// Calls on runs of growing length, and on unfoldings of growing size.
fn print_growth() {
    let columns = "call | size | library | for one | second | ratio";
    head("Cost against steps of the run (typical table)", columns);
    let steps = [16, 64, 256, 1_024, 4_096].map(|steps| (steps, typical(steps)));
    let calls: [Call; 3] = [("replay", replay), ("lift", lift), ("project", project)];
    growth(&calls, &steps);

    head(
        "Cost against unfolded events (28 conditions, 64 steps)",
        columns,
    );
    let sizes = [0, 2, 4, 6, 8, 10].map(|read| {
        let input = changeover(Size {
            ring: 8,
            lasting: 10,
            read,
            steps: 64,
        });
        (unfolded_events(&input), input)
    });
    growth(&UNFOLDED, &sizes);
}

/// Whole exports, by the program if there is one; it runs on this machine as the environment says.
fn print_exports() -> std::io::Result<()> {
    head(
        "Whole exports, by the program and by the second implementation (elapsed time)",
        "input | elements | bytes | program | second | ratio",
    );
    for input in [net_a(), typical(500), wide(), most_events()] {
        let found = export::measured(&input.table)?;
        let (program, ratio) = match found.program {
            None => ("-".to_string(), "-".to_string()),
            Some(time) => (time_text(time), format!("{:.2}", time / found.second)),
        };
        println!(
            "| {} | {} | {} | {program} | {} | {ratio} |",
            input.name,
            found.elements,
            found.bytes,
            time_text(found.second)
        );
    }
    match export::program() {
        None => println!("\nDOVETRELLIS_EXPORT names no program."),
        Some(words) => println!("\nprogram: {}", words.join(" ")),
    }
    Ok(())
}

fn main() -> std::io::Result<()> {
    print_machine();
    print_ratios();
    print_judging();
    print_growth();
    print_exports()
}
