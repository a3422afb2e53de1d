//! An independent planner in plain Rust, over the same files: it shares no code with the proved one.

use std::cmp::Reverse;
use std::collections::BinaryHeap;

const HORIZON: u32 = 172_800;

const MOST_STATES: usize = 64;

const LABELS: usize = 6;

/// Reads numbers of seven-bit groups, lowest first. The files of a benchmark are sound, so a fault is a panic.
struct Reader<'a> {
    bytes: &'a [u8],
    at: usize,
}

impl<'a> Reader<'a> {
    fn new(bytes: &'a [u8]) -> Reader<'a> {
        Reader { bytes, at: 0 }
    }

    fn number(&mut self) -> u32 {
        let mut value = 0u64;
        let mut shift = 0;
        loop {
            let byte = self.bytes[self.at];
            self.at += 1;
            value |= u64::from(byte & 0x7f) << shift;
            if byte < 0x80 {
                return u32::try_from(value).expect("a number below 2^32");
            }
            shift += 7;
            assert!(shift < 35, "at most five groups");
        }
    }

    fn count(&mut self, most: usize) -> usize {
        let count = self.number() as usize;
        assert!(count <= most, "a count within its limit");
        count
    }

    fn skip(&mut self, bytes: usize) {
        self.at += bytes;
        assert!(self.at <= self.bytes.len(), "the file ends early");
    }
}

#[derive(Clone, Copy)]
struct Connection {
    departure: u32,
    arrival: u32,
}

#[derive(Clone, Copy)]
struct Point {
    second: u32,
    arrival: u32,
}

enum Service {
    Walk(u32),
    Timetable(Vec<Connection>),
    Road(Vec<Point>),
}

impl Service {
    /// When one who comes at a second arrives.
    #[inline]
    fn arrival(&self, coming: u32) -> Option<u32> {
        let arrival = match self {
            Service::Walk(time) => coming + time,
            Service::Timetable(connections) => return least_arrival(connections, coming),
            Service::Road(points) => driven(points, coming),
        };
        (arrival <= HORIZON).then_some(arrival)
    }
}

/// The least arrival of the connections departing at or after the coming; none that departs at or after the best arrival can better it.
fn least_arrival(connections: &[Connection], coming: u32) -> Option<u32> {
    let first = connections.partition_point(|c| c.departure < coming);
    let mut best: Option<u32> = None;
    for connection in &connections[first..] {
        match best {
            Some(known) if connection.departure >= known => break,
            Some(known) => best = Some(known.min(connection.arrival)),
            None => best = Some(connection.arrival),
        }
    }
    best
}

/// The arrival by the points of a road: in proportion between two of them, rounded down.
fn driven(points: &[Point], coming: u32) -> u32 {
    let after = points.partition_point(|p| p.second <= coming);
    if after == 0 || after == points.len() {
        let end = points[after.saturating_sub(1)];
        return coming + (end.arrival - end.second);
    }
    let (from, to) = (points[after - 1], points[after]);
    let rise = u64::from(to.arrival - from.arrival);
    let gone = u64::from(coming - from.second);
    let whole = u64::from(to.second - from.second);
    from.arrival + (rise * gone / whole) as u32
}

#[derive(Clone, Copy)]
struct Arc {
    tail: u32,
    head: u32,
    label: u32,
    service: u32,
}

/// The arcs, by ascending tail, and where those of each stop begin.
struct Network {
    stops: usize,
    arcs: Vec<Arc>,
    first: Vec<u32>,
    services: Vec<Service>,
}

impl Network {
    fn read(file: &[u8]) -> Network {
        let mut file = Reader::new(file);
        assert_eq!(file.number(), 1, "the form");
        let stops = file.count(1_024);
        for _ in 0..stops {
            let len = file.count(40);
            file.skip(len);
        }
        let mut services = Vec::new();
        for _ in 0..file.count(4_096) {
            services.push(Service::Walk(file.number()));
        }
        for _ in 0..file.count(4_096) {
            services.push(Service::Timetable(read_connections(&mut file)));
        }
        for _ in 0..file.count(4_096) {
            services.push(Service::Road(read_points(&mut file)));
        }
        let arcs = read_arcs(&mut file, stops);
        let mut first = vec![0u32; stops + 1];
        for arc in &arcs {
            first[arc.tail as usize + 1] += 1;
        }
        for stop in 0..stops {
            first[stop + 1] += first[stop];
        }
        Network { stops, arcs, first, services }
    }
}

fn read_connections(file: &mut Reader) -> Vec<Connection> {
    let mut departure = 0;
    let rows = file.count(512);
    let mut list = Vec::with_capacity(rows);
    for _ in 0..rows {
        departure += file.number();
        let arrival = departure + file.number();
        assert!(arrival <= HORIZON, "an arrival within the horizon");
        list.push(Connection { departure, arrival });
    }
    list
}

fn read_points(file: &mut Reader) -> Vec<Point> {
    let mut second = 0;
    let rows = file.count(96);
    let mut list = Vec::with_capacity(rows);
    for _ in 0..rows {
        second += file.number();
        let arrival = second + file.number();
        assert!(arrival <= HORIZON, "an arrival within the horizon");
        list.push(Point { second, arrival });
    }
    list
}

fn read_arcs(file: &mut Reader, stops: usize) -> Vec<Arc> {
    let rows = file.count(8_192);
    let mut arcs: Vec<Arc> = Vec::with_capacity(rows);
    for _ in 0..rows {
        let arc = Arc { tail: file.number(), head: file.number(), label: file.number(), service: file.number() };
        assert!((arc.tail as usize) < stops && (arc.head as usize) < stops, "an arc between stops");
        assert!((arc.label as usize) < LABELS, "a label");
        assert!(arcs.last().is_none_or(|last| last.tail <= arc.tail), "tails ascend");
        arcs.push(arc);
    }
    arcs
}

/// The next state or none for each state and label, and which states are ends.
struct Rule {
    states: usize,
    next: Vec<Option<u32>>,
    ends: Vec<bool>,
}

impl Rule {
    fn read(file: &mut Reader) -> Rule {
        let states = file.count(16);
        let ends = (0..states).map(|_| file.number() == 1).collect();
        let mut next = vec![None; states * LABELS];
        for _ in 0..file.number() {
            let (state, label, to) = (file.number(), file.number(), file.number());
            next[state as usize * LABELS + label as usize] = Some(to);
        }
        Rule { states, next, ends }
    }

    /// Both rules at once, as one table.
    fn pair(one: &Rule, two: &Rule) -> Rule {
        let states = one.states * two.states;
        let mut next = Vec::with_capacity(states * LABELS);
        let mut ends = Vec::with_capacity(states);
        for i in 0..one.states {
            for j in 0..two.states {
                for label in 0..LABELS {
                    let both = one.next[i * LABELS + label].zip(two.next[j * LABELS + label]);
                    next.push(both.map(|(i, j)| i * two.states as u32 + j));
                }
                ends.push(one.ends[i] && two.ends[j]);
            }
        }
        Rule { states, next, ends }
    }
}

/// Why an ask is refused, by number.
#[derive(Clone, Copy)]
enum Refusal {
    NoSuchStart = 1,
    NoSuchTarget = 2,
    SecondAboveHorizon = 3,
    NoJourney = 4,
    TooManyStates = 11,
    NoSuchService = 25,
    RowsShort = 53,
}

#[derive(Clone, Copy)]
struct Enquiry {
    start: u32,
    target: u32,
    second: u32,
}

#[derive(Clone, Copy)]
struct Leg {
    arc: u32,
    entered: u32,
    arrived: u32,
}

struct Found {
    arrival: u32,
    legs: u32,
}

/// The best way known to a place: labels compare by second, legs, last arc and the state that it leaves in.
#[derive(Clone, Copy, PartialEq, Eq, PartialOrd, Ord)]
struct Label {
    second: u32,
    legs: u32,
    arc: u32,
    state: u16,
    settled: bool,
}

const UNKNOWN: Label = Label { second: u32::MAX, legs: u32::MAX, arc: u32::MAX, state: u16::MAX, settled: false };

#[derive(Clone, Copy, PartialEq, Eq, PartialOrd, Ord)]
struct Entry {
    second: u32,
    legs: u32,
    place: u32,
}

/// What an ask writes to, made once.
struct Tables {
    labels: Vec<Label>,
    queue: BinaryHeap<Reverse<Entry>>,
    slip: Vec<Leg>,
}

impl Tables {
    fn new(network: &Network, rule: &Rule) -> Tables {
        let rows = network.stops * rule.states;
        Tables {
            labels: vec![UNKNOWN; rows],
            queue: BinaryHeap::with_capacity(1 + network.arcs.len() * rule.states),
            slip: vec![Leg { arc: 0, entered: 0, arrived: 0 }; rows],
        }
    }
}

struct Planner {
    network: Network,
    rule: Rule,
}

impl Planner {
    fn tested(&self, enquiry: Enquiry) -> Result<(), Refusal> {
        let network = &self.network;
        if enquiry.start as usize >= network.stops {
            return Err(Refusal::NoSuchStart);
        }
        if enquiry.target as usize >= network.stops {
            return Err(Refusal::NoSuchTarget);
        }
        if enquiry.second > HORIZON {
            return Err(Refusal::SecondAboveHorizon);
        }
        if self.rule.states > MOST_STATES {
            return Err(Refusal::TooManyStates);
        }
        if network.arcs.iter().any(|arc| arc.service as usize >= network.services.len()) {
            return Err(Refusal::NoSuchService);
        }
        Ok(())
    }

    /// Settles places by second, legs and number until one of the target's in an end state is next.
    fn search(&self, enquiry: Enquiry, tables: &mut Tables) -> Option<usize> {
        let Planner { network, rule } = self;
        let Tables { labels, queue, .. } = tables;
        let states = rule.states;
        labels.fill(UNKNOWN);
        queue.clear();
        let start = enquiry.start as usize * states;
        labels[start] = Label { second: enquiry.second, legs: 0, arc: 0, state: 0, settled: false };
        queue.push(Reverse(Entry { second: enquiry.second, legs: 0, place: start as u32 }));
        while let Some(Reverse(entry)) = queue.pop() {
            let place = entry.place as usize;
            if labels[place].settled {
                continue;
            }
            let (stop, state) = (place / states, place % states);
            if stop == enquiry.target as usize && rule.ends[state] {
                return Some(place);
            }
            labels[place].settled = true;
            let (low, high) = (network.first[stop] as usize, network.first[stop + 1] as usize);
            for (number, arc) in (low..).zip(&network.arcs[low..high]) {
                let Some(next) = rule.next[state * LABELS + arc.label as usize] else {
                    continue;
                };
                let head = arc.head as usize * states + next as usize;
                if labels[head].settled {
                    continue;
                }
                let Some(arrival) = network.services[arc.service as usize].arrival(entry.second) else {
                    continue;
                };
                let label = Label {
                    second: arrival,
                    legs: entry.legs + 1,
                    arc: number as u32,
                    state: state as u16,
                    settled: false,
                };
                if label < labels[head] {
                    labels[head] = label;
                    queue.push(Reverse(Entry { second: arrival, legs: label.legs, place: head as u32 }));
                }
            }
        }
        None
    }

    fn ask(&self, enquiry: Enquiry, tables: &mut Tables) -> Result<Found, Refusal> {
        self.tested(enquiry)?;
        let place = self.search(enquiry, tables).ok_or(Refusal::NoJourney)?;
        let Tables { labels, slip, .. } = tables;
        let found = labels[place];
        if slip.len() < found.legs as usize {
            return Err(Refusal::RowsShort);
        }
        let mut last = found;
        while last.legs > 0 {
            let tail = self.network.arcs[last.arc as usize].tail as usize;
            let before = labels[tail * self.rule.states + last.state as usize];
            slip[before.legs as usize] = Leg { arc: last.arc, entered: before.second, arrived: last.second };
            last = before;
        }
        Ok(Found { arrival: found.second, legs: found.legs })
    }
}

/// The same as the proved library's `answers`: loads the files, asks every enquiry `rounds` times and writes what the last round was answered.
pub fn answers(network: &[u8], rules: &[u8], enquiries: &[u32], rounds: u32, answers: &mut [u32]) -> usize {
    let network = Network::read(network);
    let mut rules = Reader::new(rules);
    let rule = Rule::pair(&Rule::read(&mut rules), &Rule::read(&mut rules));
    let mut tables = Tables::new(&network, &rule);
    let planner = Planner { network, rule };
    let mut written = 0;
    for _ in 0..rounds {
        written = 0;
        for numbers in enquiries.chunks_exact(3) {
            let enquiry = Enquiry { start: numbers[0], target: numbers[1], second: numbers[2] };
            let answered = planner.ask(enquiry, &mut tables);
            written += write_answer(&answered, &tables.slip, &mut answers[written..]);
        }
    }
    written
}

/// Writes the refusal's number or 0, the arrival, the count of legs and the legs, and gives how many numbers that were.
fn write_answer(answered: &Result<Found, Refusal>, slip: &[Leg], answers: &mut [u32]) -> usize {
    match answered {
        Ok(found) => {
            answers[..3].copy_from_slice(&[0, found.arrival, found.legs]);
            for (row, leg) in answers[3..].chunks_exact_mut(3).zip(&slip[..found.legs as usize]) {
                row.copy_from_slice(&[leg.arc, leg.entered, leg.arrived]);
            }
            3 + 3 * found.legs as usize
        }
        Err(refusal) => {
            answers[..3].copy_from_slice(&[*refusal as u32, 0, 0]);
            3
        }
    }
}
