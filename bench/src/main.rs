// Times the calls that ship against the original's, on two inputs and behind wide blocks, measures their stack, and prints docs/SPEED.md's tables.

mod agree;
mod crawl;
mod face;
mod forms;
mod growth;
mod input;
mod list;
mod stack;
mod tables;
mod theirs;
mod time;
mod withdraw;

use face::{Flat, Lent};
use forms::OfKind;
use input::{flat, request, run, Input, RUN, SHORT};
use stack::taken_by;
use tables::State;
use theirs::{spelt, Spelt, Theirs};
use time::{by_turns, median, paired};

const KINDS: [&str; 5] = ["MMIO", "PIO", "input", "host IRQ", "MSI"];
/// Single calls in a sample: one is too short for the clock.
const BATCH: usize = 4;
/// Paired calls in a sample: what one takes beyond the other is shorter still.
const PAIRED: usize = 64;

fn main() {
    let inputs = [input::light(), input::heavy()];
    for input in &inputs {
        agree::check(input, &run(RUN));
        for (kind, fixed) in singles() {
            agree::check(input, &[request(kind, fixed, 0)]);
        }
        for length in [0, SHORT, RUN] {
            agree::check_plan(input, &run(length));
        }
    }
    println!("answers and tables agree\n");
    tests(&inputs);
    plans(&inputs);
    inputs.iter().for_each(requests);
    crawl::crawls();
    growth::growth();
    withdraw::withdrawals();
    inputs.iter().for_each(by_value);
    stacks(&inputs[1]);
}

/// A text whose stack is measured: a line of each sort and a want of each kind, with blanks for tabs.
const TEXT: &str = "pool auto mmio 0 4096
pool auto pio 0 64
pool auto input 0 0 8
pool auto host 0 8
pool auto msi 0 0 0 8 0 8 8192 8200
hold 7 mmio 0 16
hold 7 input 0 0 0 0
want 1 0 mmio 16 16 auto
want 1 1 pio 8 8 auto
want 1 2 input 0 0 0 auto
want 1 3 host auto
want 1 4 msi 0 0 4 auto
";

/// Each kind, automatic and fixed.
fn singles() -> impl Iterator<Item = (usize, bool)> {
    (1..=5).flat_map(|kind| [(kind, false), (kind, true)])
}

fn named(kind: usize, fixed: bool) -> String {
    format!("{}, {}", KINDS[kind - 1], if fixed { "fixed" } else { "automatic" })
}

fn started(input: &Input) -> Box<State> {
    State::of(agree::judge(input).tables())
}

/// The test of handed-in tables, which is a plan of no requests, and a plain copy of a state beside it.
fn tests(inputs: &[Input]) {
    println!("| tables | the test of all tables | copying a state ({} bytes) once |", size_of::<State>());
    println!("|---|---|---|");
    for input in inputs {
        let state = started(input);
        let test = median(BATCH, || Lent::of(&state), tested);
        let copy = median(1, || (state.clone(), state.clone()), |(to, from)| **to = **std::hint::black_box(from));
        println!("| {} | {test:.2} us | {copy:.2} us |", input.name);
    }
    println!();
}

/// Plans, through the C face and through the doors over a list.
fn plans(inputs: &[Input]) {
    println!("| plan | original | `planner_plan` | ratio | the test apart | ratio | `plan::list::plan_in` | ratio |");
    println!("|---|---|---|---|---|---|---|---|");
    for input in inputs {
        for length in [RUN, SHORT] {
            let asked = run(length);
            let words: Vec<Spelt> = asked.iter().map(spelt).collect();
            let numbers: Vec<Flat> = asked.iter().map(flat).collect();
            let list: Vec<_> = asked.iter().map(list::Request::of).collect();
            let (state, pools) = (started(input), Theirs::with(&input.adds));
            let all = |theirs: &mut Theirs| words.iter().filter(|one| theirs.allocate(one)).count();
            let [base, took, apart, over] = by_turns(|| {
                let (base, _) = paired(RUN / length, || pools.started(), |_| (), all);
                let (took, apart) = paired(RUN / length, || Lent::of(&state), tested, |lent| lent.plan(&numbers));
                let (over, _) = paired(RUN / length, || Lent::of(&state), tested, |lent| lent.list_in(&list));
                [base, took, apart, over]
            });
            println!(
                "| {}, {length} | {base:.2} us | {took:.2} us | {:.2} | {apart:.2} us | {:.2} | {over:.2} us | {:.2} |",
                input.name,
                took / base,
                apart / base,
                over / base
            );
        }
    }
    println!();
}

/// The test of all tables: a plan of no requests.
fn tested(lent: &mut Box<Lent>) -> u64 {
    lent.plan(&[])
}

/// One request through the C face.
fn requests(input: &Input) {
    println!("| one request, {} | original | `planner_allocate` | ratio | the test apart | ratio |", input.name);
    println!("|---|---|---|---|---|---|");
    let (state, pools) = (started(input), Theirs::with(&input.adds));
    for (kind, fixed) in singles() {
        let asked = request(kind, fixed, 0);
        let (numbers, words) = (flat(&asked), spelt(&asked));
        let [base, took, apart] = by_turns(|| {
            let (_, base) = paired(PAIRED, || pools.started(), |_| (), |theirs| theirs.allocate(&words));
            let (took, apart) = paired(PAIRED, || Lent::of(&state), tested, |lent| lent.allocate(&numbers));
            [base, took, apart]
        });
        println!(
            "| {} | {base:.3} us | {took:.2} us | {:.1} | {apart:.3} us | {:.2} |",
            named(kind, fixed),
            took / base,
            apart / base
        );
    }
    println!();
}

/// One request in the forms by value, each with its test.
fn by_value(input: &Input) {
    println!("| by value, {} | original | the kind's call | ratio | `allocation::allocate` | ratio |", input.name);
    println!("|---|---|---|---|---|---|");
    let (state, pools) = (started(input), Theirs::with(&input.adds));
    for kind in 1..=5 {
        let asked = request(kind, false, 0);
        let (numbers, words) = (flat(&asked), spelt(&asked));
        let base = median(BATCH, || pools.started(), |theirs| theirs.allocate(&words));
        let of_kind = || Box::new(OfKind::of(&state, numbers[0]));
        let call = median(BATCH, of_kind, |tables| tables.allocate(&numbers));
        let whole = median(BATCH, || state.clone(), |state| forms::allocate(state, &numbers));
        println!(
            "| {} | {base:.3} us | {call:.2} us | {:.1} | {whole:.2} us | {:.0} |",
            named(kind, false),
            call / base,
            whole / base
        );
    }
    println!();
}

/// The stack of each call.
fn stacks(input: &Input) {
    println!("| call | stack |");
    println!("|---|---|");
    let state = started(input);
    let row = |what: &str, bytes: usize| println!("| {what} | {} |", kilobytes(bytes));
    let deepest = |call: &dyn Fn(Flat) -> usize| {
        singles().map(|(kind, fixed)| call(flat(&request(kind, fixed, 0)))).max().unwrap_or(0)
    };
    let numbers: Vec<Flat> = run(RUN).iter().map(flat).collect();
    let list: Vec<_> = run(RUN).iter().map(list::Request::of).collect();
    row(
        "`planner_allocate`, the deepest kind",
        deepest(&|numbers| {
            let mut lent = Lent::of(&state);
            seen(|| lent.allocate(&numbers))
        }),
    );
    let mut lent = Lent::of(&state);
    row("`planner_plan`", seen(|| lent.plan(&numbers)));
    let mut refused = Lent::of(&state);
    row("`planner_plan`, refused and put back", seen(|| refused.plan(&twice(&numbers))));
    assert_eq!((refused.state.number, refused.state.index), (8, RUN as u64 - 1));
    for (what, call) in [
        ("`planner_call`, a pool range", vec![1, 0, 1, 1 << 40, 1 << 41]),
        ("`planner_call`, a reservation", vec![2, 7, 1, 1 << 40, 1 << 41]),
        ("`planner_call`, a start", vec![3, 0, 0]),
    ] {
        let mut copy = state.clone();
        row(what, seen(|| face::call(&mut copy, &call)));
    }
    let mut granted = lent.clone();
    row("`planner_call`, a withdrawal", seen(|| assert_eq!(face::call(&mut granted.state, &[5, 1]), 0)));
    row("`planner_read`", seen(|| face::read(&state, &[4, 1, 0])));
    row("`planner_pin`", seen(|| face::pin(&mut numbers.clone(), &lent.results)));
    let (text, mut out) = (TEXT.replace(' ', "\t").into_bytes(), vec![0; 1 << 16]);
    row("`planner_text`", seen(|| assert!(face::text(&text, &mut out) > 0)));
    row("`planner_pin_text`", seen(|| assert!(face::pin_text(&text, &mut out) > 0)));
    let mut listed = Lent::of(&state);
    row("`plan::list::plan_in`", seen(|| listed.list_in(&list)));
    let mut handed = Lent::of(&state);
    row("`plan::list::plan`", seen(|| handed.list_part(&list)));
    row(
        "by value: the kind's call, the deepest",
        deepest(&|numbers| {
            let mut tables = Box::new(OfKind::of(&state, numbers[0]));
            seen(|| tables.allocate(&numbers))
        }),
    );
    row(
        "by value: `allocation::allocate`, the deepest",
        deepest(&|numbers| {
            let mut copy = state.clone();
            seen(|| forms::allocate(&mut copy, &numbers))
        }),
    );
}

/// The same requests, the last of which asks for what a fixed one before it has: refused at the end, after every row went in.
fn twice(numbers: &[Flat]) -> Vec<Flat> {
    let before = &numbers[..numbers.len() - 1];
    let fixed = before.iter().rev().find(|one| one[6] == 1).expect("a fixed request");
    [before, &[*fixed]].concat()
}

fn seen<R>(call: impl FnOnce() -> R + Send) -> usize {
    taken_by(|| {
        std::hint::black_box(call());
    })
}

fn kilobytes(bytes: usize) -> String {
    if bytes == 0 {
        return format!("less than {} bytes", stack::UNSEEN);
    }
    format!("{:.1} KB", bytes as f64 / 1024.0)
}
