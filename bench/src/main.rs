//! The proved search and a plain Rust one over the same files, timed side by side, their answers compared.

mod clock;
mod networks;
mod ours;
mod plain;

use networks::{Dice, Ends, HORIZON, Made, Shape};
use std::process::ExitCode;
use std::time::Duration;

/// One call for files, enquiries, rounds and a table of answers.
type Side = fn(&[u8], &[u8], &[u32], u32, &mut [u32]) -> usize;

/// Both sides are timed so often, in turn, and the least time of each counts.
const TURNS: u32 = 7;

/// A turn of one side asks for so long at least.
const TURN: Duration = Duration::from_millis(40);

/// Where the target of an enquiry lies in the search.
#[derive(Clone, Copy)]
enum Hit {
    /// The stops one arc away that are reached first, and every state is an end.
    Early,
    /// Of many targets those that are reached last, and one state is an end.
    Late,
    /// No target: every place that can be reached is settled.
    None,
}

struct Case {
    name: &'static str,
    shape: Shape,
    /// The states of each of the two rules that are paired.
    states: u32,
    hit: Hit,
}

/// Mixed services, as many stops and arcs as there may be.
const SPARSE: Shape = Shape { stops: 1_024, arcs: 8_192, walks: 1_024, timetables: 1_024, roads: 512, walk: (60, 1_800), cut_off: false };

/// Mixed services, few stops and as many arcs as there may be.
const DENSE: Shape = Shape { stops: 16, arcs: 8_192, ..SPARSE };

const TIMETABLES: Shape = Shape { walks: 0, timetables: 4_096, roads: 0, ..SPARSE };

const ROADS: Shape = Shape { walks: 0, timetables: 0, roads: 4_096, ..SPARSE };

const WALKS: Shape = Shape { walks: 4_096, timetables: 0, roads: 0, ..SPARSE };

const TIES: Shape = Shape { walk: (0, 0), ..WALKS };

const fn cut_off(shape: Shape) -> Shape {
    Shape { cut_off: true, ..shape }
}

fn cases() -> Vec<Case> {
    let case = |name, shape, states, hit| Case { name, shape, states, hit };
    vec![
        case("sparse, 1 state, early", SPARSE, 1, Hit::Early),
        case("sparse, 1 state, late", SPARSE, 1, Hit::Late),
        case("sparse, 64 states, early", SPARSE, 8, Hit::Early),
        case("sparse, 64 states, late", SPARSE, 8, Hit::Late),
        case("sparse, 64 states, none", cut_off(SPARSE), 8, Hit::None),
        case("dense, 1 state, late", DENSE, 1, Hit::Late),
        case("dense, 64 states, early", DENSE, 8, Hit::Early),
        case("dense, 64 states, none", cut_off(DENSE), 8, Hit::None),
        case("timetables, 1 state, late", TIMETABLES, 1, Hit::Late),
        case("timetables, 64 states, none", cut_off(TIMETABLES), 8, Hit::None),
        case("roads, 1 state, late", ROADS, 1, Hit::Late),
        case("roads, 64 states, none", cut_off(ROADS), 8, Hit::None),
        case("walks, 1 state, late", WALKS, 1, Hit::Late),
        case("walks, 64 states, none", cut_off(WALKS), 8, Hit::None),
        case("ties, 1 state, none", cut_off(TIES), 1, Hit::None),
        case("ties, 64 states, none", cut_off(TIES), 8, Hit::None),
    ]
}

/// What is asked in a case.
struct Question {
    network: Vec<u8>,
    rules: Vec<u8>,
    enquiries: Vec<u32>,
}

impl Question {
    fn of(case: &Case) -> Question {
        let dice = &mut Dice::new(u64::from(case.states) + 17);
        let made = networks::network(&case.shape, dice);
        let ends = if let Hit::Early = case.hit { Ends::All } else { Ends::Last };
        let rules = networks::rules(case.states, ends);
        let enquiries = enquiries(case, &made, &rules, dice);
        Question { network: made.file, rules, enquiries }
    }

    fn answers(&self, side: Side, rounds: u32) -> Vec<u32> {
        let mut answers = vec![0; 1 << 20];
        let written = side(&self.network, &self.rules, &self.enquiries, rounds, &mut answers);
        answers.truncate(written);
        answers
    }

    fn time(&self, side: Side, rounds: u32, answers: &mut [u32]) -> Duration {
        let begun = clock::used();
        side(&self.network, &self.rules, &self.enquiries, rounds, answers);
        clock::used() - begun
    }
}

/// Four enquiries whose targets lie as the case says, chosen by their arrivals.
fn enquiries(case: &Case, made: &Made, rules: &[u8], dice: &mut Dice) -> Vec<u32> {
    let stops = case.shape.stops;
    let second = HORIZON / 6;
    let start = dice.below(stops);
    let targets: Vec<u32> = match case.hit {
        Hit::None => return (0..4).flat_map(|_| [dice.below(stops - 1), stops - 1, second]).collect(),
        Hit::Early => made.ways.iter().filter(|way| way.0 == start).map(|way| way.1).collect(),
        Hit::Late => (0..24).map(|_| dice.below(stops)).collect(),
    };
    let mut arrivals: Vec<(u32, u32)> = targets
        .into_iter()
        .filter_map(|target| {
            let mut answer = vec![0; 1 << 16];
            plain::answers(&made.file, rules, &[start, target, second], 1, &mut answer);
            (answer[0] == 0 && answer[2] > 0).then_some((answer[1], target))
        })
        .collect();
    arrivals.sort_unstable();
    if let Hit::Late = case.hit {
        arrivals.reverse();
    }
    arrivals.iter().take(4).flat_map(|&(_, target)| [start, target, second]).collect()
}

/// The least times of both sides, for loading alone and for one ask.
struct Times {
    load: [Duration; 2],
    ask: [f64; 2],
}

const SIDES: [Side; 2] = [ours::answers, plain::answers];

/// How many rounds take both sides at least a turn, and four times as long as loading: else what loading varies by would tell.
fn rounds(question: &Question, answers: &mut [u32]) -> u32 {
    let mut rounds = 1;
    for side in SIDES {
        let load = question.time(side, 0, answers);
        while question.time(side, rounds, answers) < load + TURN.max(4 * load) {
            rounds *= 2;
        }
    }
    rounds
}

fn measure(question: &Question) -> Times {
    let mut answers = vec![0; 1 << 20];
    let asks = (question.enquiries.len() / 3) as u32;
    let rounds = rounds(question, &mut answers);
    let mut load = [Duration::MAX; 2];
    let mut whole = [Duration::MAX; 2];
    for _ in 0..TURNS {
        for (i, side) in SIDES.into_iter().enumerate() {
            load[i] = load[i].min(question.time(side, 0, &mut answers));
            whole[i] = whole[i].min(question.time(side, rounds, &mut answers));
        }
    }
    let ask = [0, 1].map(|i| (whole[i] - load[i]).as_secs_f64() * 1e6 / f64::from(rounds * asks));
    Times { load, ask }
}

fn main() -> ExitCode {
    let wanted = std::env::args().nth(1);
    println!("{:<30} {:>12} {:>12} {:>7} {:>12} {:>12}", "case", "ours us/ask", "plain us/ask", "ratio", "ours load us", "plain load us");
    let mut worst: f64 = 0.0;
    for case in cases() {
        if wanted.as_ref().is_some_and(|name| !case.name.starts_with(name.as_str())) {
            continue;
        }
        let question = Question::of(&case);
        let [ours, plain] = SIDES.map(|side| question.answers(side, 1));
        if plain.is_empty() || ours != plain {
            println!("{}: the answers differ", case.name);
            return ExitCode::FAILURE;
        }
        let Times { load, ask } = measure(&question);
        let ratio = ask[0] / ask[1];
        worst = worst.max(ratio);
        println!(
            "{:<30} {:>12.1} {:>12.1} {:>7.2} {:>12} {:>12}",
            case.name,
            ask[0],
            ask[1],
            ratio,
            load[0].as_micros(),
            load[1].as_micros()
        );
    }
    println!("worst ratio {worst:.2}");
    ExitCode::SUCCESS
}
