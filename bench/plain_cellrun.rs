//! A plain `cellrun`: one file of Rust that does what docs/FORMATS.md, docs/RULES.md, docs/REFERENCES.md and
//! docs/REFUSALS.md say of a run. It was written from the pages of docs/ alone and shares nothing with the crates, so
//! that the two can be compared byte by byte (bench/compare) and side by side in speed and memory (bench/measure).
//!
//! It reads a table and events from standard input and writes records, and a refusal if there is one, to standard
//! output. Nothing is kept of the input but the cell's own state, and whatever is written goes out before the program
//! waits for more input.
//!
//! Build: `rustc -O -o plain_cellrun bench/plain_cellrun.rs`. Without `-O`, each slot also checks the facts of a flow.

use std::fs::File;
use std::io::{self, BufRead, BufReader, BufWriter, Read, Write};
use std::os::fd::AsFd;

/// One packet's worth in tags, for a weight of 1: the least common multiple of 1 to 16.
const WHOLE: u64 = 720_720;
const MOST_ARRIVED: u32 = 1_000_000_000;
const MOST_SLOTS: u32 = 1_000_000_000;
const BUFFER_BYTES: usize = 1 << 16;

// ------------------------------------------------------------------------------------------------------ Why it stops

/// What is refused, with its number.
#[derive(Clone, Copy)]
enum Refusal {
    Frame = 1,
    Version = 2,
    Header = 3,
    FlowCount = 4,
    Line = 5,
    NoSuchFlow = 6,
    TooManyPackets = 7,
    TooManySlots = 8,
    Event = 16,
}

/// Why a run stops before the end of its input.
enum Stop {
    Refused(Refusal),
    Failed(io::Error),
}

impl From<Refusal> for Stop {
    fn from(refusal: Refusal) -> Self {
        Stop::Refused(refusal)
    }
}

impl From<io::Error> for Stop {
    fn from(error: io::Error) -> Self {
        Stop::Failed(error)
    }
}

// ------------------------------------------------------------------------------------------------------------- Table

enum Kind {
    RoundRobin,
    Tags { lookahead: u8 },
}

/// What the table says of one flow.
struct Line {
    weight: u8,
    delay_weight: u8,
    lag_limit: u8,
    lead_limit: u8,
}

struct Table {
    kind: Kind,
    lines: Vec<Line>,
}

impl Table {
    /// Reads a table from its bytes, the length among them. The conditions are tried in the order of their numbers.
    fn read(bytes: &[u8]) -> Result<Table, Refusal> {
        let &[high, low, version, kind, lookahead, flow_count, ref line_bytes @ ..] = bytes else {
            return Err(Refusal::Frame);
        };
        if usize::from(u16::from_be_bytes([high, low])) != bytes.len() - 2 {
            return Err(Refusal::Frame);
        }
        if version != 1 {
            return Err(Refusal::Version);
        }
        let (kind, delay_weights) = match (kind, lookahead) {
            (1, 0) => (Kind::RoundRobin, 0..=0),
            (2, 0..=16) => (Kind::Tags { lookahead }, 1..=16),
            _ => return Err(Refusal::Header),
        };
        if !(1..=16).contains(&flow_count) || line_bytes.len() != 4 * usize::from(flow_count) {
            return Err(Refusal::FlowCount);
        }
        let mut lines = Vec::new();
        for line in line_bytes.chunks_exact(4) {
            let line = Line { weight: line[0], delay_weight: line[1], lag_limit: line[2], lead_limit: line[3] };
            if !(1..=16).contains(&line.weight) || !delay_weights.contains(&line.delay_weight) {
                return Err(Refusal::Line);
            }
            lines.push(line);
        }
        Ok(Table { kind, lines })
    }
}

// -------------------------------------------------------------------------------------------------------- References

/// The error-free reference: it says whose turn it is.
enum Reference {
    RoundRobin(RoundRobin),
    Tags(Tags),
}

impl Reference {
    fn of(table: &Table) -> Reference {
        match table.kind {
            Kind::RoundRobin => Reference::RoundRobin(RoundRobin::new(&table.lines)),
            Kind::Tags { lookahead } => Reference::Tags(Tags::new(&table.lines, lookahead)),
        }
    }

    fn enter(&mut self, flow: usize) {
        match self {
            Reference::RoundRobin(round_robin) => round_robin.flows[flow].due = true,
            Reference::Tags(tags) => tags.enter(flow),
        }
    }

    fn leave(&mut self, flow: usize) {
        match self {
            Reference::RoundRobin(round_robin) => round_robin.flows[flow].due = false,
            Reference::Tags(tags) => tags.leave(flow),
        }
    }

    fn turn(&mut self) -> Option<usize> {
        match self {
            Reference::RoundRobin(round_robin) => round_robin.turn(),
            Reference::Tags(tags) => tags.turn(),
        }
    }
}

struct RoundRobin {
    flows: Vec<RoundRobinFlow>,
    pointer: usize,
}

struct RoundRobinFlow {
    weight: u8,
    used: u8,
    due: bool,
}

impl RoundRobin {
    fn new(lines: &[Line]) -> RoundRobin {
        let flows = lines.iter().map(|line| RoundRobinFlow { weight: line.weight, used: 0, due: false }).collect();
        RoundRobin { flows, pointer: 0 }
    }

    fn turn(&mut self) -> Option<usize> {
        if !self.flows.iter().any(|flow| flow.due) {
            return None;
        }
        let marked = self.next_ready().or_else(|| {
            self.flows.iter_mut().for_each(|flow| flow.used = 0);
            self.next_ready()
        })?;
        self.flows[marked].used += 1;
        self.pointer = if marked + 1 == self.flows.len() { 0 } else { marked + 1 };
        Some(marked)
    }

    /// The first due flow that has used below its weight, from the pointer upward and around.
    fn next_ready(&self) -> Option<usize> {
        let ready = |&flow: &usize| self.flows[flow].due && self.flows[flow].used < self.flows[flow].weight;
        (self.pointer..self.flows.len()).chain(0..self.pointer).find(ready)
    }
}

struct Tags {
    flows: Vec<TagFlow>,
    virtual_time: u64,
    /// How far past virtual time a start tag may lie for its flow to be eligible.
    reach: u64,
}

struct TagFlow {
    start_tag: u64,
    /// What a turn adds to the start tag.
    step: u64,
    /// The finish tag less the start tag.
    span: u64,
    due: bool,
}

impl Tags {
    fn new(lines: &[Line], lookahead: u8) -> Tags {
        let tag_flow = |line: &Line| {
            let (step, span) = (WHOLE / u64::from(line.weight), WHOLE / u64::from(line.delay_weight));
            TagFlow { start_tag: 0, step, span, due: false }
        };
        let flows = lines.iter().map(tag_flow).collect();
        Tags { flows, virtual_time: 0, reach: u64::from(lookahead) * WHOLE }
    }

    fn enter(&mut self, flow: usize) {
        let entering = &mut self.flows[flow];
        entering.due = true;
        entering.start_tag = entering.start_tag.max(self.virtual_time);
        self.update_virtual_time();
    }

    fn leave(&mut self, flow: usize) {
        self.flows[flow].due = false;
        self.update_virtual_time();
    }

    fn turn(&mut self) -> Option<usize> {
        let latest = self.virtual_time + self.reach;
        let eligible = self.flows.iter().enumerate().filter(|(_, flow)| flow.due && flow.start_tag <= latest);
        let (marked, _) = eligible.min_by_key(|(_, flow)| flow.start_tag + flow.span)?;
        self.flows[marked].start_tag += self.flows[marked].step;
        self.update_virtual_time();
        Some(marked)
    }

    fn update_virtual_time(&mut self) {
        let start_tags_due = self.flows.iter().filter(|flow| flow.due).map(|flow| flow.start_tag);
        self.virtual_time = start_tags_due.min().unwrap_or(self.virtual_time);
    }
}

// ------------------------------------------------------------------------------------------------------------ Record

/// Who sends in a slot, and on what account.
#[derive(Clone, Copy)]
enum Taking {
    Idle,
    Own(usize),
    LagRepaid(usize),
    LeadCharged(usize),
    Free(usize),
}

impl Taking {
    fn sender(self) -> Option<usize> {
        match self {
            Taking::Idle => None,
            Taking::Own(flow) | Taking::LagRepaid(flow) | Taking::LeadCharged(flow) | Taking::Free(flow) => Some(flow),
        }
    }
}

/// What the slot costs the marked flow.
#[derive(Clone, Copy)]
enum Charge {
    None = 0,
    LeadDown = 1,
    LagUp = 2,
    Forfeited = 3,
}

struct Record {
    marked: Option<usize>,
    taking: Taking,
    charge: Charge,
    flow_count: usize,
    slot: u32,
}

impl Record {
    fn bytes(&self) -> [u8; 12] {
        let taking = match self.taking {
            Taking::Idle => 0,
            Taking::Own(_) => 1,
            Taking::LagRepaid(_) => 2,
            Taking::LeadCharged(_) => 3,
            Taking::Free(_) => 4,
        };
        let [marked, sender] = [self.marked, self.taking.sender()].map(|flow| flow.map_or(255, |flow| flow as u8));
        let [slot_0, slot_1, slot_2, slot_3] = self.slot.to_be_bytes();
        let (charge, flow_count) = (self.charge as u8, self.flow_count as u8);
        [0, 10, 1, marked, sender, taking, charge, flow_count, slot_0, slot_1, slot_2, slot_3]
    }
}

// -------------------------------------------------------------------------------------------------------------- Cell

/// The row of one flow: its limits and its counts.
#[derive(Default)]
struct Row {
    lag_limit: u32,
    lead_limit: u32,
    arrived: u32,
    marked: u32,
    sent: u32,
    free: u32,
    forfeited: u32,
    lead: u32,
    lag: u32,
    giving: u32,
}

impl Row {
    fn new(line: &Line) -> Row {
        Row { lag_limit: line.lag_limit.into(), lead_limit: line.lead_limit.into(), ..Row::default() }
    }

    fn is_waiting(&self) -> bool {
        self.arrived > self.sent
    }

    fn is_due(&self) -> bool {
        self.arrived > self.marked
    }

    /// The facts that each flow keeps whatever happens.
    fn keeps_facts(&self) -> bool {
        let within_limits = self.lead <= self.lead_limit && self.lag <= self.lag_limit;
        let one_sided = self.lead == 0 || self.lag == 0;
        let giving_below = self.giving < self.lead_limit.max(1);
        let balanced = self.sent + self.lag + self.forfeited == self.marked + self.lead + self.free;
        within_limits && one_sided && giving_below && balanced && self.sent <= self.arrived
    }
}

/// Which flows are clean in a slot: bit i for flow i.
#[derive(Clone, Copy)]
struct CleanSet(u16);

impl CleanSet {
    fn has(self, flow: usize) -> bool {
        self.0 >> flow & 1 == 1
    }
}

struct Cell {
    rows: Vec<Row>,
    reference: Reference,
    ring_pointer: usize,
    ring_remainder: u32,
    slot: u32,
}

impl Cell {
    fn create(table: &Table) -> Cell {
        let rows: Vec<Row> = table.lines.iter().map(Row::new).collect();
        let ring_pointer = rows.len() - 1;
        Cell { rows, reference: Reference::of(table), ring_pointer, ring_remainder: 0, slot: 0 }
    }

    fn arrive(&mut self, flow: usize, count: u32) -> Result<(), Refusal> {
        let row = self.rows.get_mut(flow).ok_or(Refusal::NoSuchFlow)?;
        if count > MOST_ARRIVED - row.arrived {
            return Err(Refusal::TooManyPackets);
        }
        let was_due = row.is_due();
        row.arrived += count;
        if !was_due && row.is_due() {
            self.reference.enter(flow);
        }
        Ok(())
    }

    /// Opens a control phase, lets every flow flag and decides the slot.
    fn decide(&mut self, clean: CleanSet) -> Result<Record, Refusal> {
        if self.slot == MOST_SLOTS {
            return Err(Refusal::TooManySlots);
        }
        let marked = self.reference.turn();
        let (taking, charge) = match marked {
            None => (self.repaid_or_free(clean), Charge::None),
            Some(flow) if self.rows[flow].lead > 0 => self.leading_marked(flow, clean),
            Some(flow) => self.other_marked(flow, clean),
        };
        self.count_sent(taking);
        if let Some(flow) = marked {
            self.count_marked(flow, charge);
        }
        debug_assert!(self.rows.iter().all(Row::keeps_facts));
        let record = Record { marked, taking, charge, flow_count: self.rows.len(), slot: self.slot };
        self.slot += 1;
        Ok(record)
    }

    /// What a slot comes to whose marked flow leads. It also moves that flow's giving.
    fn leading_marked(&mut self, flow: usize, clean: CleanSet) -> (Taking, Charge) {
        let row = &mut self.rows[flow];
        row.giving += row.lead;
        if row.giving >= row.lead_limit {
            row.giving -= row.lead_limit;
            if let Some(taking) = self.repaid(clean) {
                return (taking, Charge::LeadDown);
            }
        }
        if self.is_able(flow, clean) {
            return (Taking::Own(flow), Charge::None);
        }
        let taking = self.repaid_or_charged(clean).unwrap_or_else(|| self.free_or_idle(clean));
        (taking, Charge::LeadDown)
    }

    /// What a slot comes to whose marked flow does not lead.
    fn other_marked(&mut self, flow: usize, clean: CleanSet) -> (Taking, Charge) {
        if self.is_able(flow, clean) {
            return (Taking::Own(flow), Charge::None);
        }
        let row = &self.rows[flow];
        if !row.is_waiting() || row.lag == row.lag_limit {
            return (self.repaid_or_free(clean), Charge::Forfeited);
        }
        match self.repaid_or_charged(clean) {
            Some(taking) => (taking, Charge::LagUp),
            None => (self.free_or_idle(clean), Charge::Forfeited),
        }
    }

    fn repaid_or_free(&mut self, clean: CleanSet) -> Taking {
        self.repaid(clean).unwrap_or_else(|| self.free_or_idle(clean))
    }

    fn repaid_or_charged(&mut self, clean: CleanSet) -> Option<Taking> {
        self.repaid(clean).or_else(|| self.chargeable(clean).map(Taking::LeadCharged))
    }

    fn free_or_idle(&self, clean: CleanSet) -> Taking {
        (0..self.rows.len()).find(|&flow| self.is_able(flow, clean)).map_or(Taking::Idle, Taking::Free)
    }

    fn is_able(&self, flow: usize, clean: CleanSet) -> bool {
        clean.has(flow) && self.rows[flow].is_waiting()
    }

    /// Lets the ring find a lagging flow, which then sends: the ring moves in no other slot.
    fn repaid(&mut self, clean: CleanSet) -> Option<Taking> {
        let pointer = self.ring_pointer;
        let lags_and_is_able = |&flow: &usize| self.rows[flow].lag > 0 && self.is_able(flow, clean);
        if self.ring_remainder > 0 && lags_and_is_able(&pointer) {
            self.ring_remainder -= 1;
        } else {
            self.ring_pointer = (pointer + 1..self.rows.len()).chain(0..=pointer).find(lags_and_is_able)?;
            self.ring_remainder = self.rows[self.ring_pointer].lag / 4;
        }
        Some(Taking::LagRepaid(self.ring_pointer))
    }

    /// The able flow that is charged lead if it sends in another's turn.
    fn chargeable(&self, clean: CleanSet) -> Option<usize> {
        let able = || self.rows.iter().enumerate().filter(|&(flow, _)| self.is_able(flow, clean));
        let leading = able()
            .filter(|(_, row)| 0 < row.lead && row.lead < row.lead_limit)
            .min_by(|(_, a), (_, b)| (a.lead * b.lead_limit).cmp(&(b.lead * a.lead_limit)));
        let in_sync = || able().find(|(_, row)| row.lead == 0 && row.lag == 0 && row.lead_limit > 0);
        leading.or_else(in_sync).map(|(flow, _)| flow)
    }

    fn count_sent(&mut self, taking: Taking) {
        let Some(sender) = taking.sender() else { return };
        let row = &mut self.rows[sender];
        row.sent += 1;
        match taking {
            Taking::LagRepaid(_) => row.lag -= 1,
            Taking::LeadCharged(_) => row.lead += 1,
            Taking::Free(_) => row.free += 1,
            Taking::Idle | Taking::Own(_) => {}
        }
    }

    fn count_marked(&mut self, flow: usize, charge: Charge) {
        let row = &mut self.rows[flow];
        row.marked += 1;
        match charge {
            Charge::None => {}
            Charge::LeadDown => row.lead -= 1,
            Charge::LagUp => row.lag += 1,
            Charge::Forfeited => row.forfeited += 1,
        }
        if !row.is_due() {
            self.reference.leave(flow);
        }
    }
}

// --------------------------------------------------------------------------------------------------------------- Run

enum Event {
    Arrival { flow: u8, count: u8 },
    ControlPhase { clean: CleanSet },
}

struct Run<R: Read, W: Write> {
    input: BufReader<R>,
    output: BufWriter<W>,
}

impl<R: Read, W: Write> Run<R, W> {
    fn new(input: R, output: W) -> Self {
        let input = BufReader::with_capacity(BUFFER_BYTES, input);
        let output = BufWriter::with_capacity(BUFFER_BYTES, output);
        Run { input, output }
    }

    /// Runs to the end of the input or to a refusal, which is written.
    fn finish(mut self) -> io::Result<()> {
        match self.read_table_and_events() {
            Ok(()) => {}
            Err(Stop::Refused(refusal)) => self.output.write_all(&[0, 2, 1, refusal as u8])?,
            Err(Stop::Failed(error)) => return Err(error),
        }
        self.output.flush()
    }

    fn read_table_and_events(&mut self) -> Result<(), Stop> {
        let table = Table::read(&self.table_bytes()?)?;
        let mut cell = Cell::create(&table);
        while let Some(event) = self.next_event()? {
            match event {
                Event::Arrival { flow, count } => cell.arrive(flow.into(), count.into())?,
                Event::ControlPhase { clean } => self.output.write_all(&cell.decide(clean)?.bytes())?,
            }
        }
        Ok(())
    }

    fn table_bytes(&mut self) -> Result<Vec<u8>, Stop> {
        let length_bytes = self.two_bytes_or(Refusal::Frame)?;
        let length = u16::from_be_bytes(length_bytes);
        if length < 4 {
            return Err(Refusal::Frame.into());
        }
        let mut bytes = length_bytes.to_vec();
        for _ in 0..length {
            bytes.push(self.byte_or(Refusal::Frame)?);
        }
        Ok(bytes)
    }

    fn next_event(&mut self) -> Result<Option<Event>, Stop> {
        match self.next_byte()? {
            None => Ok(None),
            Some(0x41) => {
                let [flow, count] = self.two_bytes_or(Refusal::Event)?;
                Ok(Some(Event::Arrival { flow, count }))
            }
            Some(0x53) => {
                let mask = u16::from_be_bytes(self.two_bytes_or(Refusal::Event)?);
                Ok(Some(Event::ControlPhase { clean: CleanSet(mask) }))
            }
            Some(_) => Err(Refusal::Event.into()),
        }
    }

    /// The next two bytes, or the refusal of an input that ends before them.
    fn two_bytes_or(&mut self, refusal: Refusal) -> Result<[u8; 2], Stop> {
        Ok([self.byte_or(refusal)?, self.byte_or(refusal)?])
    }

    fn byte_or(&mut self, refusal: Refusal) -> Result<u8, Stop> {
        self.next_byte()?.ok_or(Stop::Refused(refusal))
    }

    /// The next byte, or none at the end of the input.
    fn next_byte(&mut self) -> io::Result<Option<u8>> {
        if self.input.buffer().is_empty() {
            self.await_input()?;
        }
        let byte = self.input.buffer().first().copied();
        if byte.is_some() {
            self.input.consume(1);
        }
        Ok(byte)
    }

    /// Lets out what is written so far, and only then waits for more input.
    #[cold]
    fn await_input(&mut self) -> io::Result<()> {
        self.output.flush()?;
        while let Err(error) = self.input.fill_buf() {
            if error.kind() != io::ErrorKind::Interrupted {
                return Err(error);
            }
        }
        Ok(())
    }
}

fn main() -> io::Result<()> {
    // As a file: `Stdout` is written line by line, and the length of each record would count as the end of one.
    let output = File::from(io::stdout().as_fd().try_clone_to_owned()?);
    Run::new(io::stdin().lock(), output).finish()
}
