//! Networks at the limits, made the same way on every run, as the bytes of a network file and of rule files.

pub const HORIZON: u32 = 172_800;

const MOST_CONNECTIONS: u32 = 512;

const MOST_POINTS: u32 = 96;

const LABELS: u32 = 6;

/// A stream of numbers that depends on its seed alone.
pub struct Dice(u64);

impl Dice {
    pub fn new(seed: u64) -> Dice {
        Dice(seed)
    }

    fn next(&mut self) -> u64 {
        self.0 = self.0.wrapping_add(0x9e37_79b9_7f4a_7c15);
        let mut z = self.0;
        z = (z ^ (z >> 30)).wrapping_mul(0xbf58_476d_1ce4_e5b9);
        z = (z ^ (z >> 27)).wrapping_mul(0x94d0_49bb_1331_11eb);
        z ^ (z >> 31)
    }

    /// A number from 0 on and below `end`.
    pub fn below(&mut self, end: u32) -> u32 {
        (self.next() % u64::from(end)) as u32
    }

    /// A number from `low` up to `high`, both included.
    fn within(&mut self, low: u32, high: u32) -> u32 {
        low + self.below(high - low + 1)
    }
}

/// How many services of each kind, and how far the arcs reach.
pub struct Shape {
    pub stops: u32,
    pub arcs: u32,
    pub walks: u32,
    pub timetables: u32,
    pub roads: u32,
    /// The least and the most that a walk takes.
    pub walk: (u32, u32),
    /// The last stop is reached by no arc.
    pub cut_off: bool,
}

/// The bytes of a file: numbers in groups of seven bits, lowest first.
#[derive(Default)]
struct File(Vec<u8>);

impl File {
    fn number(&mut self, mut value: u32) {
        while value >= 0x80 {
            self.0.push((value & 0x7f) as u8 | 0x80);
            value >>= 7;
        }
        self.0.push(value as u8);
    }
}

/// A network file, and from which stop to which each of its arcs leads.
pub struct Made {
    pub file: Vec<u8>,
    pub ways: Vec<(u32, u32)>,
}

/// A network file of that shape.
pub fn network(shape: &Shape, dice: &mut Dice) -> Made {
    let mut file = File::default();
    file.number(1);
    file.number(shape.stops);
    for _ in 0..shape.stops {
        file.number(1);
        file.0.push(b'a' + dice.below(26) as u8);
    }
    file.number(shape.walks);
    for _ in 0..shape.walks {
        file.number(dice.within(shape.walk.0, shape.walk.1));
    }
    file.number(shape.timetables);
    for _ in 0..shape.timetables {
        timetable(&mut file, dice);
    }
    file.number(shape.roads);
    for _ in 0..shape.roads {
        road(&mut file, dice);
    }
    let ways = arcs(&mut file, shape, dice);
    Made { file: file.0, ways }
}

/// A full list of connections: about one in five minutes, over most of the two days, some overtaking others.
fn timetable(file: &mut File, dice: &mut Dice) {
    file.number(MOST_CONNECTIONS);
    for _ in 0..MOST_CONNECTIONS {
        file.number(dice.within(1, 560));
        file.number(if dice.below(4) == 0 { dice.within(300, 900) } else { dice.within(900, 7_200) });
    }
}

/// A full list of points, about one in half an hour. The next arrival never falls.
fn road(file: &mut File, dice: &mut Dice) {
    file.number(MOST_POINTS);
    let mut travel = 1_800;
    for _ in 0..MOST_POINTS {
        let gap = dice.within(1_200, 1_740);
        file.number(gap);
        travel = dice.within(travel - travel.min(gap).min(travel - 60), 3_600.max(travel));
        file.number(travel);
    }
}

/// The arcs by ascending tail, their ends and services at random.
fn arcs(file: &mut File, shape: &Shape, dice: &mut Dice) -> Vec<(u32, u32)> {
    let services = shape.walks + shape.timetables + shape.roads;
    let heads = if shape.cut_off { shape.stops - 1 } else { shape.stops };
    let mut ways: Vec<(u32, u32)> = (0..shape.arcs).map(|_| (dice.below(shape.stops), dice.below(heads))).collect();
    ways.sort_by_key(|way| way.0);
    file.number(shape.arcs);
    for &(tail, head) in &ways {
        file.number(tail);
        file.number(head);
        let service = dice.below(services);
        file.number(label(service, shape, dice));
        file.number(service);
    }
    ways
}

/// Walks are on foot or by link, timetables are boardings, roads are by car.
fn label(service: u32, shape: &Shape, dice: &mut Dice) -> u32 {
    if service < shape.walks {
        if dice.below(4) == 0 { 5 } else { 0 }
    } else if service < shape.walks + shape.timetables {
        dice.within(1, 3)
    } else {
        4
    }
}

/// Which states of a rule are ends.
#[derive(Clone, Copy, PartialEq)]
pub enum Ends {
    All,
    Last,
}

/// Two rule files, each of so many states: every label moves each of the two on, so that their pair comes to every pair of states.
pub fn rules(states: u32, ends: Ends) -> Vec<u8> {
    let mut files = rule(states, ends, 1);
    files.extend(rule(states, ends, 3));
    files
}

fn rule(states: u32, ends: Ends, pace: u32) -> Vec<u8> {
    let mut file = File::default();
    file.number(states);
    for state in 0..states {
        file.number(u32::from(ends == Ends::All || state + 1 == states));
    }
    file.number(states * LABELS);
    for state in 0..states {
        for label in 0..LABELS {
            file.number(state);
            file.number(label);
            file.number((state + 1 + label * pace) % states);
        }
    }
    file.0
}
