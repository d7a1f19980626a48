//! The analyser of worst ticks in plain Rust, without proofs: it reads a program file from
//! standard input and prints a line each for worst, best and ports.

use std::collections::HashMap;
use std::hash::Hash;
use std::io::{self, Read};

const SHELVES: usize = 16;
const MOST_CYCLES: u32 = 1_073_741_823;
const MOST_STEPS: usize = 512;
const MOST_ARCS: usize = 512;
const MOST_TICKS: usize = 64;
const STATES: u8 = 64;
const OUT: u8 = 255;
const LAST_SITUATION: usize = 1_023;
const MOST_BYTES: usize = 32_768;

/// What may stop a program, each with the number of its question.
#[derive(Clone, Copy)]
enum Refusal {
    ShelfUnknown = 2,
    ShelvesEqual = 3,
    ShelfFilled = 4,
    ShelfEmpty = 5,
    CyclesTooMany = 6,
    ArcsWrong = 7,
    StateWithoutArc = 8,
    StepsFull = 9,
    ArcsFull = 10,
    ExitAtOnce = 11,
    NoRepeat = 12,
    RowsTooLong = 13,
    FileTooLarge = 14,
    RecordCut = 15,
    KindUnknown = 16,
    LengthWrong = 17,
    NotOneShelf = 18,
}

type Answer<T> = Result<T, Refusal>;

fn ask(yes: bool, refusal: Refusal) -> Answer<()> {
    if yes { Ok(()) } else { Err(refusal) }
}

#[derive(Clone, Copy)]
struct Label {
    cycles: u32,
    ports: u32,
}

/// Values with a unit: runs are joined, labels within a tick are added.
trait Algebra: Copy + Eq {
    const NAME: &str;
    const CHOOSES: bool;
    const UNIT: Self;
    fn weigh(label: Label) -> Self;
    fn join(self, other: Self) -> Self;
    fn add(self, other: Self) -> Self;
    fn word(self) -> String;
}

#[derive(Clone, Copy, PartialEq, Eq)]
struct Worst(u32);

#[rustfmt::skip]
impl Algebra for Worst {
    const NAME: &str = "worst";
    const CHOOSES: bool = true;
    const UNIT: Self = Worst(0);
    fn weigh(label: Label) -> Self { Worst(label.cycles) }
    fn join(self, other: Self) -> Self { Worst(self.0.max(other.0)) }
    fn add(self, other: Self) -> Self { Worst(self.0.saturating_add(other.0)) }
    fn word(self) -> String { held(self.0) }
}

#[derive(Clone, Copy, PartialEq, Eq)]
struct Best(u32);

#[rustfmt::skip]
impl Algebra for Best {
    const NAME: &str = "best";
    const CHOOSES: bool = true;
    const UNIT: Self = Best(0);
    fn weigh(label: Label) -> Self { Best(label.cycles) }
    fn join(self, other: Self) -> Self { Best(self.0.min(other.0)) }
    fn add(self, other: Self) -> Self { Best(self.0.saturating_add(other.0)) }
    fn word(self) -> String { held(self.0) }
}

#[derive(Clone, Copy, PartialEq, Eq)]
struct Ports(u32);

#[rustfmt::skip]
impl Algebra for Ports {
    const NAME: &str = "ports";
    const CHOOSES: bool = false;
    const UNIT: Self = Ports(0);
    fn weigh(label: Label) -> Self { Ports(label.ports) }
    fn join(self, other: Self) -> Self { Ports(self.0 | other.0) }
    fn add(self, other: Self) -> Self { Ports(self.0 | other.0) }
    fn word(self) -> String { self.0.to_string() }
}

/// A sum that is held at the top may be past it.
fn held(cycles: u32) -> String {
    if cycles == u32::MAX { "over".into() } else { cycles.to_string() }
}

/// Joins coefficients; absent gives way.
fn join<V: Algebra>(a: Option<V>, b: Option<V>) -> Option<V> {
    match (a, b) {
        (Some(a), Some(b)) => Some(a.join(b)),
        _ => a.or(b),
    }
}

/// Adds coefficients; absent stays.
fn add<V: Algebra>(a: Option<V>, b: Option<V>) -> Option<V> {
    Some(a?.add(b?))
}

fn mark<V: Algebra>(set: bool) -> Option<V> {
    set.then_some(V::UNIT)
}

/// Both rows at one tick.
#[derive(Clone, Copy, PartialEq, Eq)]
struct Tick<V> {
    pause: Option<V>,
    exit: Option<V>,
}

impl<V: Algebra> Tick<V> {
    const ABSENT: Self = Tick { pause: None, exit: None };

    fn join(self, other: Self) -> Self {
        Tick { pause: join(self.pause, other.pause), exit: join(self.exit, other.exit) }
    }
}

/// Rows whose ticks repeat from the transient on.
struct Piece<V> {
    ticks: Vec<Tick<V>>,
    transient: usize,
}

impl<V: Algebra> Piece<V> {
    fn after(&self, phase: usize) -> usize {
        if phase + 1 < self.ticks.len() { phase + 1 } else { self.transient }
    }

    /// The rows joined over a set of phases, and the phases after those that pause.
    fn gather(&self, set: u64) -> (Tick<V>, u64) {
        gather(set, |phase| {
            let tick = self.ticks[phase];
            (tick, bit(self.after(phase), tick.pause.is_some()))
        })
    }
}

/// The set of one member where it is in, else the empty set.
fn bit(member: usize, is_in: bool) -> u64 {
    u64::from(is_in) << member
}

/// Joins what each member of a set gives, and unites the sets it leads to.
fn gather<V: Algebra>(mut set: u64, at: impl Fn(usize) -> (Tick<V>, u64)) -> (Tick<V>, u64) {
    let (mut joined, mut next) = (Tick::ABSENT, 0);
    while set != 0 {
        let (tick, leads) = at(set.trailing_zeros() as usize);
        joined = joined.join(tick);
        next |= leads;
        set &= set - 1;
    }
    (joined, next)
}

fn node<V: Algebra>(label: Label) -> Piece<V> {
    let left = Tick { exit: Some(V::weigh(label)), ..Tick::ABSENT };
    Piece { ticks: vec![left, Tick::ABSENT], transient: 1 }
}

fn pause<V: Algebra>(label: Label) -> Piece<V> {
    let paused = Tick { pause: Some(V::weigh(label)), ..Tick::ABSENT };
    let left = Tick { exit: Some(V::UNIT), ..Tick::ABSENT };
    Piece { ticks: vec![paused, left, Tick::ABSENT], transient: 2 }
}

fn table<V: Algebra>(arcs: &[Arc]) -> Answer<Piece<V>> {
    // For each state the joined weights of its arcs, and the states that they lead to.
    let mut states = [(Tick::ABSENT, 0); STATES as usize];
    for arc in arcs {
        let (tick, leads) = &mut states[usize::from(arc.from)];
        let weight = Some(V::weigh(arc.label));
        if arc.to == OUT {
            tick.exit = join(tick.exit, weight);
        } else {
            tick.pause = join(tick.pause, weight);
            *leads |= 1 << arc.to;
        }
    }
    unroll(1, |set| gather(set, |state| states[state]))
}

fn choice<V: Algebra>(a: &Piece<V>, b: &Piece<V>) -> Answer<Piece<V>> {
    unroll((0, 0), |(i, j)| (a.ticks[i].join(b.ticks[j]), (a.after(i), b.after(j))))
}

fn sequence<V: Algebra>(a: &Piece<V>, b: &Piece<V>) -> Answer<Piece<V>> {
    let head = b.ticks[0];
    unroll((0, 0), |(i, set)| {
        let Tick { pause, exit } = a.ticks[i];
        let (gathered, next) = b.gather(set);
        let tied = Tick { pause: add(exit, head.pause), exit: add(exit, head.exit) };
        let tick = Tick { pause, exit: None }.join(tied).join(gathered);
        (tick, (a.after(i), next | bit(b.after(0), tied.pause.is_some())))
    })
}

fn repeat<V: Algebra>(a: &Piece<V>) -> Answer<Piece<V>> {
    let head = a.ticks[0].pause;
    unroll((true, 0), |(first, set)| {
        let (gathered, next) = a.gather(set);
        let starts = if first { Some(V::UNIT) } else { gathered.exit };
        let pause = join(add(starts, head), gathered.pause);
        (Tick { pause, exit: None }, (false, next | bit(a.after(0), starts.is_some())))
    })
}

fn fork<V: Algebra>(a: &Piece<V>, b: &Piece<V>) -> Answer<Piece<V>> {
    unroll((0, 0, false, false), |(i, j, a_left, b_left)| {
        let (x, y) = (a.ticks[i], b.ticks[j]);
        let x_done = join(x.exit, mark(a_left));
        let y_done = join(y.exit, mark(b_left));
        let pause = join(add(x.pause, join(y.pause, y_done)), add(x_done, y.pause));
        let exit = join(add(x.exit, y_done), add(mark(a_left), y.exit));
        (Tick { pause, exit }, (a.after(i), b.after(j), x_done.is_some(), y_done.is_some()))
    })
}

fn abort<V: Algebra>(h: &Piece<V>, a: &Piece<V>) -> Answer<Piece<V>> {
    unroll((0, 0, true), |(i, j, live)| {
        let (over, body) = (h.ticks[i], a.ticks[j]);
        let pause = add(over.pause, body.pause);
        let exit = join(add(over.exit, mark(live)), add(over.pause, body.exit));
        (Tick { pause, exit }, (h.after(i), a.after(j), body.pause.is_some()))
    })
}

/// Follows a rule, which gives the tick at a situation and the situation after it, up to the
/// first situation that was met before.
fn unroll<V: Algebra, S: Copy + Eq + Hash>(
    first: S,
    rule: impl Fn(S) -> (Tick<V>, S),
) -> Answer<Piece<V>> {
    let mut met = HashMap::new();
    let mut ticks = Vec::new();
    let mut now = first;
    loop {
        match met.insert(now, ticks.len()) {
            Some(start) => return least(ticks, start),
            None => ask(ticks.len() < LAST_SITUATION, Refusal::NoRepeat)?,
        }
        let (tick, next) = rule(now);
        ticks.push(tick);
        now = next;
    }
}

/// Brings ticks that repeat as a whole from the start on to the least period, then to the least
/// transient.
fn least<V: Algebra>(mut ticks: Vec<Tick<V>>, start: usize) -> Answer<Piece<V>> {
    let cycle = &ticks[start..];
    let whole = cycle.len();
    let repeats = |&d: &usize| whole % d == 0 && cycle[d..] == cycle[..whole - d];
    let period = (1..whole).find(repeats).unwrap_or(whole);
    let early = (0..start).rev().take_while(|&t| ticks[t] == ticks[t + period]).count();
    let transient = start - early;
    ask(transient + period <= MOST_TICKS, Refusal::RowsTooLong)?;
    ticks.truncate(transient + period);
    Ok(Piece { ticks, transient })
}

#[derive(Clone, Copy)]
struct Arc {
    from: u8,
    to: u8,
    label: Label,
}

/// What a record says, with the shelves it names.
enum Call {
    Node(u8, Label),
    Pause(u8, Label),
    Table(u8, Vec<Arc>),
    Choice(u8, u8),
    Sequence(u8, u8),
    Loop(u8),
    Fork(u8, u8),
    Abort(u8, u8),
    Clear(u8),
}

/// Reads the calls of a file, up to a record that is refused.
fn read_file(mut bytes: &[u8], calls: &mut Vec<Call>) -> Answer<()> {
    ask(bytes.len() <= MOST_BYTES, Refusal::FileTooLarge)?;
    while !bytes.is_empty() {
        let (call, rest) = read_record(bytes)?;
        calls.push(call);
        bytes = rest;
    }
    Ok(())
}

fn read_record(bytes: &[u8]) -> Answer<(Call, &[u8])> {
    let &[l0, l1, k0, k1, ..] = bytes else { return Err(Refusal::RecordCut) };
    let length = u16::from_le_bytes([l0, l1]).into();
    ask((4..=bytes.len()).contains(&length), Refusal::RecordCut)?;
    let (record, rest) = bytes.split_at(length);
    let call = match (u16::from_le_bytes([k0, k1]), &record[4..]) {
        (1, [shelf, label @ ..]) if label.len() == 8 => Call::Node(*shelf, read_label(label)),
        (2, [shelf, label @ ..]) if label.len() == 8 => Call::Pause(*shelf, read_label(label)),
        (3, [shelf, n0, n1, arcs @ ..])
            if arcs.len() == 10 * usize::from(u16::from_le_bytes([*n0, *n1])) =>
        {
            Call::Table(*shelf, arcs.chunks(10).map(read_arc).collect())
        }
        (4, &[first, second]) => Call::Choice(first, second),
        (5, &[first, second]) => Call::Sequence(first, second),
        (6, &[shelf]) => Call::Loop(shelf),
        (7, &[first, second]) => Call::Fork(first, second),
        (8, &[first, second]) => Call::Abort(first, second),
        (9, &[shelf]) => Call::Clear(shelf),
        (1..=9, _) => return Err(Refusal::LengthWrong),
        _ => return Err(Refusal::KindUnknown),
    };
    Ok((call, rest))
}

fn read_arc(bytes: &[u8]) -> Arc {
    Arc { from: bytes[0], to: bytes[1], label: read_label(&bytes[2..]) }
}

fn read_label(bytes: &[u8]) -> Label {
    let number = |at| u32::from_le_bytes([bytes[at], bytes[at + 1], bytes[at + 2], bytes[at + 3]]);
    Label { cycles: number(0), ports: number(4) }
}

type Rule<V> = fn(&Piece<V>, &Piece<V>) -> Answer<Piece<V>>;

struct Rack<V> {
    shelves: [Option<Piece<V>>; SHELVES],
    steps: usize,
    arcs: usize,
}

impl<V: Algebra> Rack<V> {
    fn open() -> Self {
        Rack { shelves: [const { None }; SHELVES], steps: 0, arcs: 0 }
    }

    fn answer(&mut self, call: &Call) -> Answer<()> {
        match *call {
            Call::Node(shelf, label) => self.leaf(shelf, label, node),
            Call::Pause(shelf, label) => self.leaf(shelf, label, pause),
            Call::Table(shelf, ref arcs) => self.table(shelf, arcs),
            Call::Choice(first, second) => self.combine(first, second, choice),
            Call::Sequence(first, second) => self.combine(first, second, sequence),
            Call::Loop(shelf) => self.repeat(shelf),
            Call::Fork(first, second) => self.combine(first, second, fork),
            Call::Abort(first, second) => self.combine(first, second, abort),
            Call::Clear(shelf) => self.clear(shelf),
        }
    }

    fn leaf(&mut self, shelf: u8, label: Label, make: fn(Label) -> Piece<V>) -> Answer<()> {
        let shelf = self.empty(shelf)?;
        ask(label.cycles <= MOST_CYCLES, Refusal::CyclesTooMany)?;
        self.room()?;
        self.put(shelf, Ok(make(label)))
    }

    fn table(&mut self, shelf: u8, arcs: &[Arc]) -> Answer<()> {
        let shelf = self.empty(shelf)?;
        ask(arcs.iter().all(|arc| arc.label.cycles <= MOST_CYCLES), Refusal::CyclesTooMany)?;
        let leads = |arc: &Arc| arc.from < STATES && (arc.to < STATES || arc.to == OUT);
        ask((1..=MOST_ARCS).contains(&arcs.len()) && arcs.iter().all(leads), Refusal::ArcsWrong)?;
        let begun = arcs.iter().fold(0u64, |set, arc| set | 1 << arc.from);
        let inner = arcs.iter().filter(|arc| arc.to != OUT);
        let named = inner.fold(begun, |set, arc| set | 1 << arc.to);
        ask(begun == u64::MAX >> named.leading_zeros(), Refusal::StateWithoutArc)?;
        self.room()?;
        ask(self.arcs + arcs.len() <= MOST_ARCS, Refusal::ArcsFull)?;
        self.put(shelf, table(arcs))?;
        self.arcs += arcs.len();
        Ok(())
    }

    fn combine(&mut self, first: u8, second: u8, rule: Rule<V>) -> Answer<()> {
        let (first, second) = (index(first)?, index(second)?);
        ask(first != second, Refusal::ShelvesEqual)?;
        let (a, b) = (self.piece(first)?, self.piece(second)?);
        self.room()?;
        self.put(first, rule(a, b))?;
        self.shelves[second] = None;
        Ok(())
    }

    fn repeat(&mut self, shelf: u8) -> Answer<()> {
        let shelf = index(shelf)?;
        let body = self.piece(shelf)?;
        self.room()?;
        ask(body.ticks[0].exit.is_none(), Refusal::ExitAtOnce)?;
        self.put(shelf, repeat(body))
    }

    fn clear(&mut self, shelf: u8) -> Answer<()> {
        let emptied = self.shelves[index(shelf)?].take();
        ask(emptied.is_some(), Refusal::ShelfEmpty)
    }

    fn empty(&self, shelf: u8) -> Answer<usize> {
        let shelf = index(shelf)?;
        ask(self.shelves[shelf].is_none(), Refusal::ShelfFilled)?;
        Ok(shelf)
    }

    fn piece(&self, shelf: usize) -> Answer<&Piece<V>> {
        self.shelves[shelf].as_ref().ok_or(Refusal::ShelfEmpty)
    }

    fn room(&self) -> Answer<()> {
        ask(self.steps < MOST_STEPS, Refusal::StepsFull)
    }

    fn put(&mut self, shelf: usize, piece: Answer<Piece<V>>) -> Answer<()> {
        self.shelves[shelf] = Some(piece?);
        self.steps += 1;
        Ok(())
    }

    fn only_piece(&self) -> Answer<&Piece<V>> {
        let mut filled = self.shelves.iter().flatten();
        match (filled.next(), filled.next()) {
            (Some(piece), None) => Ok(piece),
            _ => Err(Refusal::NotOneShelf),
        }
    }
}

fn index(shelf: u8) -> Answer<usize> {
    let shelf = usize::from(shelf);
    ask(shelf < SHELVES, Refusal::ShelfUnknown)?;
    Ok(shelf)
}

/// Runs the calls on a new rack and words the report or the refusal.
fn line<V: Algebra>(calls: &[Call], ended: Answer<()>) -> String {
    let name = V::NAME;
    let refused = |refusal, record| format!("{name} refused {} record {record}", refusal as u8);
    let mut rack = Rack::<V>::open();
    for (record, call) in calls.iter().enumerate() {
        if let Err(refusal) = rack.answer(call) {
            return refused(refusal, record);
        }
    }
    match ended.and_then(|()| rack.only_piece()) {
        Ok(piece) => format!("{name} {}", report(piece)),
        Err(refusal) => refused(refusal, calls.len()),
    }
}

fn report<V: Algebra>(piece: &Piece<V>) -> String {
    let both = |tick: &Tick<V>| join(tick.pause, tick.exit);
    let figure = piece.ticks.iter().map(both).fold(None, join);
    let reached = piece.ticks.iter().position(|tick| both(tick) == figure);
    let tick = reached.filter(|_| V::CHOOSES).map_or(String::new(), |tick| format!(" tick {tick}"));
    let word = figure.expect("every plan has a run of one tick").word();
    let (transient, period) = (piece.transient, piece.ticks.len() - piece.transient);
    format!("{word}{tick} transient {transient} period {period}")
}

fn main() -> io::Result<()> {
    let mut bytes = Vec::new();
    io::stdin().take(MOST_BYTES as u64 + 1).read_to_end(&mut bytes)?;
    let mut calls = Vec::new();
    let ended = read_file(&bytes, &mut calls);
    println!("{}", line::<Worst>(&calls, ended));
    println!("{}", line::<Best>(&calls, ended));
    println!("{}", line::<Ports>(&calls, ended));
    Ok(())
}
