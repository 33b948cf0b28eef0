//! What `pl_tool replay` does, in plain Rust: no proofs, no crates, and no answer to a refused allocation.
//!
//! It reads a session, replays it move by move, and prints the report, with the texts, statuses and lines on standard
//! error of docs/FORMATS.md. `plain` is there for the checks alone: it makes moves until none is enabled.

use std::collections::{HashMap, VecDeque};
use std::env;
use std::ffi::OsString;
use std::io::{self, Read, Write};
use std::iter;
use std::mem;
use std::ops::RangeInclusive;
use std::process::ExitCode;
use std::vec;

// Events, and what goes between handlers.

#[derive(Clone, Copy)]
enum Caught {
    TooLong,
    Unknown,
    Syntax,
}

enum Command {
    Ping,
    Quit,
    Echo(Vec<u8>),
    Add(Vec<u8>, u32),
    Get(Vec<u8>),
}

enum Reply {
    Pong,
    Text(Vec<u8>),
    Total(u64),
    Bye,
    Error(&'static str),
}

enum Message {
    Bytes(Vec<u8>),
    Line(Vec<u8>),
    Command(Command),
    Reply(Reply),
}

enum Event {
    Active,
    Read(Message),
    ReadComplete,
    Caught(Caught),
    User(u32),
    Write(Message),
    Flush,
}

#[derive(Clone, Copy, PartialEq)]
enum Cause {
    Transport,
    Aborted,
}

enum Item {
    Event(Event),
    End,
    Fail(Cause),
    /// The channel is no longer writable, or is so again. Nobody asks which.
    Flag,
}

/// An item on its way to a hop of a channel.
struct Envelope {
    channel: u16,
    hop: u16,
    item: Item,
}

/// The work list, as a node of a channel puts items on it.
struct Outputs<'a> {
    work: &'a mut VecDeque<Envelope>,
    channel: u16,
}

impl Outputs<'_> {
    /// Puts an item last, where there is a hop that it goes to.
    fn put(&mut self, hop: Option<u16>, item: Item) {
        if let Some(hop) = hop {
            self.work.push_back(Envelope {
                channel: self.channel,
                hop,
                item,
            });
        }
    }

    fn event(&mut self, hop: Option<u16>, event: Event) {
        self.put(hop, Item::Event(event));
    }
}

#[derive(Clone, Copy, PartialEq)]
enum State {
    Open,
    Ended,
    Failed(Cause),
}

// Handlers.

#[derive(Clone, Copy, PartialEq)]
enum Direction {
    Inbound,
    Outbound,
    Turn,
}

enum Handler {
    Lines(Lines),
    Length(Length),
    Decode,
    Service(Service),
    Encode,
    LineEnd,
    Prepend { width: usize },
    FlushEvery { n: u64, held_back: u64 },
}

impl Handler {
    fn direction(&self) -> Direction {
        match self {
            Handler::Lines(_) | Handler::Length(_) | Handler::Decode => Direction::Inbound,
            Handler::Service(_) => Direction::Turn,
            Handler::Encode
            | Handler::LineEnd
            | Handler::Prepend { .. }
            | Handler::FlushEvery { .. } => Direction::Outbound,
        }
    }
}

/// Cuts what is read into lines of at most `max` bytes.
struct Lines {
    max: usize,
    /// What follows the last line feed, unless it is overlong.
    partial: Vec<u8>,
    is_overlong: bool,
}

impl Lines {
    fn take(&mut self, mut bytes: &[u8], mut put: impl FnMut(Event)) {
        while let Some(end) = bytes.iter().position(|&byte| byte == b'\n') {
            self.keep(&bytes[..end]);
            put(self.line());
            bytes = &bytes[end + 1..];
        }
        self.keep(bytes);
    }

    /// A carriage return that is taken off may be one byte more than a line can have.
    fn keep(&mut self, bytes: &[u8]) {
        if self.is_overlong || self.partial.len() + bytes.len() > self.max + 1 {
            self.partial.clear();
            self.is_overlong = true;
        } else {
            self.partial.extend_from_slice(bytes);
        }
    }

    fn line(&mut self) -> Event {
        let mut line = mem::take(&mut self.partial);
        if line.last() == Some(&b'\r') {
            line.pop();
        }
        if mem::take(&mut self.is_overlong) || line.len() > self.max {
            Event::Caught(Caught::TooLong)
        } else {
            Event::Read(Message::Line(line))
        }
    }
}

/// Cuts what is read into frames of at most `max` bytes, each with its length in a field of `width` bytes in front.
struct Length {
    width: usize,
    max: u64,
    /// How many bytes of the field are there, and what they say so far.
    read: usize,
    length: u64,
    /// The payload so far, unless it is skipped, and how much of it is to come.
    payload: Vec<u8>,
    left: u64,
    is_skipped: bool,
}

impl Length {
    fn new(width: usize, max: u64) -> Length {
        Length {
            width,
            max,
            read: 0,
            length: 0,
            payload: Vec::new(),
            left: 0,
            is_skipped: false,
        }
    }

    fn take(&mut self, mut bytes: &[u8], mut put: impl FnMut(Event)) {
        while !bytes.is_empty() {
            if self.read < self.width {
                let count = bytes.len().min(self.width - self.read);
                self.field(&bytes[..count], &mut put);
                bytes = &bytes[count..];
            }
            if self.read == self.width {
                let count = self.left.min(bytes.len() as u64) as usize;
                self.keep(&bytes[..count], &mut put);
                bytes = &bytes[count..];
            }
        }
    }

    /// Bytes of the field, which is whole with the last of them.
    fn field(&mut self, bytes: &[u8], put: &mut impl FnMut(Event)) {
        self.read += bytes.len();
        for &byte in bytes {
            self.length = 256 * self.length + u64::from(byte);
        }
        if self.read == self.width {
            self.left = mem::take(&mut self.length);
            self.is_skipped = self.width as u64 + self.left > self.max;
            if self.is_skipped {
                put(Event::Caught(Caught::TooLong));
            }
        }
    }

    /// Bytes of the payload. The next field follows the last of them.
    fn keep(&mut self, bytes: &[u8], put: &mut impl FnMut(Event)) {
        self.left -= bytes.len() as u64;
        if !self.is_skipped {
            self.payload.extend_from_slice(bytes);
        }
        if self.left == 0 {
            self.read = 0;
            if !self.is_skipped {
                put(Event::Read(Message::Line(mem::take(&mut self.payload))));
            }
        }
    }
}

/// These bytes behind their length in a field of `width` bytes; as a line, which no transport takes, where they are too
/// many for it.
fn prepended(width: usize, bytes: Vec<u8>) -> Message {
    let length = (bytes.len() as u64).to_be_bytes();
    let (above, field) = length.split_at(length.len() - width);
    if above.iter().any(|&byte| byte != 0) {
        return Message::Line(bytes);
    }
    let mut whole = Vec::with_capacity(width + bytes.len());
    whole.extend_from_slice(field);
    whole.extend_from_slice(&bytes);
    Message::Bytes(whole)
}

fn command(mut line: Vec<u8>) -> Result<Command, Caught> {
    let (verb, argument) = match line.iter().position(|&byte| byte == b' ') {
        Some(end) => (&line[..end], Some(end + 1)),
        None => (&line[..], None),
    };
    match (verb, argument) {
        (b"PING", None) => Ok(Command::Ping),
        (b"QUIT", None) => Ok(Command::Quit),
        (b"ECHO", Some(start)) => {
            line.drain(..start);
            Ok(Command::Echo(line))
        }
        (b"ADD", Some(start)) => {
            line.drain(..start);
            let end = line
                .iter()
                .position(|&byte| byte == b' ')
                .ok_or(Caught::Syntax)?;
            let number = number(&line[end + 1..]).ok_or(Caught::Syntax)?;
            line.truncate(end);
            Ok(Command::Add(key(line)?, number))
        }
        (b"GET", Some(start)) => {
            line.drain(..start);
            Ok(Command::Get(key(line)?))
        }
        (b"PING" | b"QUIT" | b"ECHO" | b"ADD" | b"GET", _) => Err(Caught::Syntax),
        _ => Err(Caught::Unknown),
    }
}

fn key(name: Vec<u8>) -> Result<Vec<u8>, Caught> {
    let is_key = (1..=16).contains(&name.len())
        && name
            .iter()
            .all(|byte| byte.is_ascii_lowercase() || byte.is_ascii_digit());
    if is_key {
        Ok(name)
    } else {
        Err(Caught::Syntax)
    }
}

/// The number that these are the digits of, at most nine, with no zero in front.
fn number(digits: &[u8]) -> Option<u32> {
    let is_number = (1..=9).contains(&digits.len())
        && (digits[0] != b'0' || digits.len() == 1)
        && digits.iter().all(u8::is_ascii_digit);
    is_number.then(|| {
        digits
            .iter()
            .fold(0, |sum, digit| 10 * sum + u32::from(digit - b'0'))
    })
}

#[derive(Default)]
struct Service {
    totals: HashMap<Vec<u8>, u64>,
    has_quit: bool,
}

impl Service {
    const MAX_TOTAL: u64 = 1_000_000_000_000_000;
    const MAX_KEYS: usize = 256;

    fn reply(&mut self, command: &Command) -> Reply {
        match command {
            Command::Ping => Reply::Pong,
            Command::Quit => Reply::Bye,
            Command::Echo(text) => Reply::Text(text.clone()),
            Command::Add(key, number) => self.add(key, u64::from(*number)),
            Command::Get(key) => Reply::Total(self.totals.get(key).copied().unwrap_or(0)),
        }
    }

    fn add(&mut self, key: &[u8], number: u64) -> Reply {
        let is_full = self.totals.len() == Self::MAX_KEYS;
        match self.totals.get_mut(key) {
            Some(total) if *total + number > Self::MAX_TOTAL => Reply::Error("range"),
            Some(total) => {
                *total += number;
                Reply::Total(*total)
            }
            None if is_full => Reply::Error("full"),
            None => {
                self.totals.insert(key.to_vec(), number);
                Reply::Total(number)
            }
        }
    }
}

fn fault(caught: Caught) -> &'static str {
    match caught {
        Caught::TooLong => "toolong",
        Caught::Unknown => "unknown",
        Caught::Syntax => "syntax",
    }
}

fn push_reply(text: &mut Vec<u8>, reply: &Reply) {
    match reply {
        Reply::Pong => text.extend_from_slice(b"+PONG"),
        Reply::Text(bytes) => {
            text.push(b'+');
            text.extend_from_slice(bytes);
        }
        Reply::Total(total) => {
            text.push(b':');
            push_number(text, *total);
        }
        Reply::Bye => text.extend_from_slice(b"+BYE"),
        Reply::Error(name) => {
            text.extend_from_slice(b"-ERR ");
            text.extend_from_slice(name.as_bytes());
        }
    }
}

/// A handler at its hop.
struct Context {
    handler: Handler,
    state: State,
    /// The hop that it hands on to towards the tail. An outbound handler has none.
    up: Option<u16>,
    /// The hop that it hands on to towards the head, as long as it has one.
    down: Option<u16>,
}

impl Context {
    fn take(&mut self, item: Item, outputs: &mut Outputs) {
        match (self.state, &item) {
            (State::Open, Item::Event(_)) => self.step(item, outputs),
            (State::Open, Item::End) => self.close(State::Ended, || Item::End, outputs),
            (State::Open, &Item::Fail(cause)) => {
                self.close(State::Failed(cause), || Item::Fail(cause), outputs)
            }
            (State::Open | State::Ended, Item::Flag) => outputs.put(self.up, item),
            _ => {}
        }
    }

    fn close(&mut self, state: State, last: impl Fn() -> Item, outputs: &mut Outputs) {
        self.state = state;
        outputs.put(self.up, last());
        outputs.put(self.down, last());
    }

    fn step(&mut self, item: Item, outputs: &mut Outputs) {
        let (up, down) = (self.up, self.down);
        match (&mut self.handler, item) {
            (Handler::Lines(lines), Item::Event(Event::Read(Message::Bytes(bytes)))) => {
                lines.take(&bytes, |event| outputs.event(up, event));
            }
            (Handler::Length(length), Item::Event(Event::Read(Message::Bytes(bytes)))) => {
                length.take(&bytes, |event| outputs.event(up, event));
            }
            (Handler::Decode, Item::Event(Event::Read(Message::Line(line)))) => {
                outputs.event(
                    up,
                    match command(line) {
                        Ok(command) => Event::Read(Message::Command(command)),
                        Err(caught) => Event::Caught(caught),
                    },
                );
            }
            (Handler::Service(_), Item::Event(event)) => self.serve(event, outputs),
            (Handler::Encode, Item::Event(Event::Write(Message::Reply(reply)))) => {
                let mut text = Vec::new();
                push_reply(&mut text, &reply);
                outputs.event(down, Event::Write(Message::Bytes(text)));
            }
            (Handler::LineEnd, Item::Event(Event::Write(Message::Bytes(mut bytes)))) => {
                bytes.extend_from_slice(b"\r\n");
                outputs.event(down, Event::Write(Message::Bytes(bytes)));
            }
            (Handler::Prepend { width }, Item::Event(Event::Write(Message::Bytes(bytes)))) => {
                outputs.event(down, Event::Write(prepended(*width, bytes)));
            }
            (Handler::FlushEvery { n, held_back }, Item::Event(Event::Flush)) => {
                *held_back += 1;
                if held_back == n {
                    *held_back = 0;
                    outputs.event(down, Event::Flush);
                }
            }
            // A handler that is not the turn has one way to hand on.
            (_, item) => outputs.put(up.or(down), item),
        }
    }

    fn serve(&mut self, event: Event, outputs: &mut Outputs) {
        let Handler::Service(service) = &mut self.handler else {
            return;
        };
        if service.has_quit {
            return;
        }
        let reply = match &event {
            Event::Read(Message::Command(command)) => Some(service.reply(command)),
            Event::Caught(caught) => Some(Reply::Error(fault(*caught))),
            _ => None,
        };
        service.has_quit = matches!(event, Event::Read(Message::Command(Command::Quit)));
        let flushes = service.has_quit || matches!(event, Event::ReadComplete);
        outputs.event(self.up, event);
        if let Some(reply) = reply {
            outputs.event(self.down, Event::Write(Message::Reply(reply)));
        }
        if flushes {
            outputs.event(self.down, Event::Flush);
        }
        if service.has_quit {
            outputs.put(self.down.take(), Item::End);
        }
    }
}

/// Where inbound events end.
struct Tail {
    state: State,
    events: Vec<Event>,
}

impl Tail {
    fn take(&mut self, item: Item) {
        match (self.state, item) {
            (State::Open, Item::Event(event)) => self.events.push(event),
            (State::Open, Item::End) => self.state = State::Ended,
            (State::Open, Item::Fail(cause)) => self.state = State::Failed(cause),
            _ => {}
        }
    }
}

// The head: what is read, the outbound buffer, and the transport.

#[derive(Clone, Copy)]
enum Outcome {
    Open,
    Success,
    Closed,
    Fault,
    Unsupported,
}

/// A message that waits to be written.
struct Waiting {
    number: usize,
    bytes: Vec<u8>,
}

/// Bytes in memory, of which a call accepts a window, and one call may fail.
struct Transport {
    bytes: Vec<u8>,
    window: usize,
    fail_at: Option<u64>,
    calls: u64,
}

impl Transport {
    /// How many of these bytes were accepted, or none where the call fails.
    fn write(&mut self, bytes: &[u8]) -> Option<usize> {
        self.calls += 1;
        if self.fail_at == Some(self.calls) {
            return None;
        }
        let count = bytes.len().min(self.window);
        self.bytes.extend_from_slice(&bytes[..count]);
        Some(count)
    }
}

/// The hop at which events come in.
const FIRST: Option<u16> = Some(0);

struct Head {
    /// What is left to read, as long as the first lane is open.
    is_reading: bool,
    is_active: bool,
    bursts: vec::IntoIter<Vec<Event>>,
    aborts: bool,
    /// The flushed messages first.
    buffer: VecDeque<Waiting>,
    flushed: usize,
    /// How much of the first message has left.
    offset: usize,
    outcomes: Vec<Outcome>,
    transport: Transport,
    low: u64,
    high: u64,
    pending: u64,
    is_writable: bool,
    state: State,
    /// Why it has failed by itself.
    failure: Option<Cause>,
}

impl Head {
    /// Makes the next read step, unless none is left or it is held.
    fn read(&mut self, outputs: &mut Outputs) -> bool {
        if !self.is_reading {
            return false;
        }
        if let Some(cause) = self.failure {
            self.is_reading = false;
            outputs.put(FIRST, Item::Fail(cause));
        } else if !self.is_active {
            self.is_active = true;
            outputs.event(FIRST, Event::Active);
        } else if self.bursts.len() > 0 {
            if !self.is_writable && self.flushed > 0 {
                return false;
            }
            for event in self.bursts.next().into_iter().flatten() {
                outputs.event(FIRST, event);
            }
            outputs.event(FIRST, Event::ReadComplete);
        } else {
            self.is_reading = false;
            if self.aborts {
                self.fail(Cause::Aborted, outputs);
                outputs.put(FIRST, Item::Fail(Cause::Aborted));
            } else {
                outputs.put(FIRST, Item::End);
            }
        }
        true
    }

    /// Offers the transport what is left of the first flushed message, if there is one.
    fn write(&mut self, outputs: &mut Outputs) -> bool {
        if self.flushed == 0 {
            return false;
        }
        match self.transport.write(&self.buffer[0].bytes[self.offset..]) {
            Some(count) => {
                self.offset += count;
                self.settle_written(outputs);
            }
            None => self.fail(Cause::Transport, outputs),
        }
        true
    }

    fn take(&mut self, item: Item, outputs: &mut Outputs) {
        if self.state != State::Open {
            return;
        }
        match item {
            Item::Event(Event::Write(Message::Bytes(bytes))) => match self.failure {
                Some(cause) => self.outcomes.push(outcome(cause)),
                None => {
                    self.pending += bytes.len() as u64;
                    self.buffer.push_back(Waiting {
                        number: self.outcomes.len(),
                        bytes,
                    });
                    self.outcomes.push(Outcome::Open);
                    self.mark(outputs);
                }
            },
            Item::Event(Event::Write(_)) => self.outcomes.push(Outcome::Unsupported),
            Item::Event(Event::Flush) => {
                self.flushed = self.buffer.len();
                self.settle_written(outputs);
            }
            Item::End => self.close(State::Ended, outputs),
            Item::Fail(cause) => self.close(State::Failed(cause), outputs),
            Item::Event(_) | Item::Flag => {}
        }
    }

    fn close(&mut self, state: State, outputs: &mut Outputs) {
        self.state = state;
        self.settle_from(self.flushed, Outcome::Closed, outputs);
    }

    fn fail(&mut self, cause: Cause, outputs: &mut Outputs) {
        self.failure = Some(cause);
        self.flushed = 0;
        self.settle_from(0, outcome(cause), outputs);
    }

    /// The flushed messages that have left whole succeed.
    fn settle_written(&mut self, outputs: &mut Outputs) {
        while self.flushed > 0 && self.offset == self.buffer[0].bytes.len() {
            self.outcomes[self.buffer[0].number] = Outcome::Success;
            self.buffer.pop_front();
            self.flushed -= 1;
            self.pending -= mem::take(&mut self.offset) as u64;
        }
        self.mark(outputs);
    }

    fn settle_from(&mut self, start: usize, outcome: Outcome, outputs: &mut Outputs) {
        for waiting in self.buffer.drain(start..) {
            self.outcomes[waiting.number] = outcome;
            self.pending -= waiting.bytes.len() as u64;
        }
        self.mark(outputs);
    }

    /// Holds the pending bytes against the marks, and sends a flag where they change the writability.
    fn mark(&mut self, outputs: &mut Outputs) {
        let changes = if self.is_writable {
            self.pending > self.high
        } else {
            self.pending < self.low
        };
        if changes {
            self.is_writable = !self.is_writable;
            outputs.put(FIRST, Item::Flag);
        }
    }
}

/// The outcome of what a failed head has not written.
fn outcome(cause: Cause) -> Outcome {
    match cause {
        Cause::Transport => Outcome::Fault,
        Cause::Aborted => Outcome::Closed,
    }
}

// Channels, executors and moves.

struct Channel {
    /// Of each hop.
    executors: Vec<usize>,
    inbound: Vec<Context>,
    tail: Tail,
    outbound: Vec<Context>,
    head: Head,
}

impl Channel {
    fn take(&mut self, hop: u16, item: Item, outputs: &mut Outputs) {
        let (hop, tail) = (usize::from(hop), self.inbound.len());
        if hop < tail {
            self.inbound[hop].take(item, outputs);
        } else if hop == tail {
            self.tail.take(item);
        } else if let Some(context) = self.outbound.get_mut(hop - tail - 1) {
            context.take(item, outputs);
        } else {
            self.head.take(item, outputs);
        }
    }

    /// The executor of its head and tail.
    fn home(&self) -> usize {
        self.executors[self.inbound.len()]
    }

    fn stands(&self) -> &'static str {
        let taken = |state| match state {
            State::Failed(cause) => Some(cause),
            _ => None,
        };
        let by_itself = self.head.failure;
        match by_itself
            .or(taken(self.head.state))
            .or(taken(self.tail.state))
        {
            Some(Cause::Transport) => "failed Transport",
            Some(Cause::Aborted) => "failed Aborted",
            None if self.is_drained() => "drained",
            None => "open",
        }
    }

    fn is_drained(&self) -> bool {
        self.tail.state == State::Ended && self.head.state == State::Ended && self.head.flushed == 0
    }
}

struct Executor {
    queue: VecDeque<Envelope>,
    /// What waits to be handed over, by target, each with how many were made there before it.
    backlog: Vec<VecDeque<(u64, Envelope)>>,
    made: u64,
}

#[derive(Clone, Copy)]
enum Move {
    Read(usize),
    Task(usize),
    Hand(usize),
    Out(usize),
}

struct Net {
    capacity: usize,
    channels: Vec<Channel>,
    executors: Vec<Executor>,
    work: VecDeque<Envelope>,
}

impl Net {
    fn has(&self, step: Move) -> bool {
        match step {
            Move::Read(channel) | Move::Out(channel) => channel < self.channels.len(),
            Move::Task(executor) | Move::Hand(executor) => executor < self.executors.len(),
        }
    }

    /// Makes a move where it is enabled.
    fn apply(&mut self, step: Move) -> bool {
        match step {
            Move::Read(channel) => self.at_head(channel, Head::read),
            Move::Out(channel) => self.at_head(channel, Head::write),
            Move::Task(executor) => self.run_task(executor),
            Move::Hand(executor) => self.hand(executor),
        }
    }

    fn at_head(&mut self, number: usize, act: impl Fn(&mut Head, &mut Outputs) -> bool) -> bool {
        let channel = &mut self.channels[number];
        let home = channel.home();
        let mut outputs = Outputs {
            work: &mut self.work,
            channel: number as u16,
        };
        let is_enabled = act(&mut channel.head, &mut outputs);
        self.work_off(home);
        is_enabled
    }

    fn run_task(&mut self, me: usize) -> bool {
        let Some(Envelope { channel, hop, item }) = self.executors[me].queue.pop_front() else {
            return false;
        };
        self.call(channel, hop, item);
        self.work_off(me);
        true
    }

    fn call(&mut self, channel: u16, hop: u16, item: Item) {
        let mut outputs = Outputs {
            work: &mut self.work,
            channel,
        };
        self.channels[usize::from(channel)].take(hop, item, &mut outputs);
    }

    /// The running executor takes what is its own, and keeps what is for others.
    fn work_off(&mut self, me: usize) {
        while let Some(envelope) = self.work.pop_front() {
            let Envelope { channel, hop, .. } = envelope;
            let target = self.channels[usize::from(channel)].executors[usize::from(hop)];
            if target == me {
                self.call(channel, hop, envelope.item);
            } else {
                let executor = &mut self.executors[me];
                executor.backlog[target].push_back((executor.made, envelope));
                executor.made += 1;
            }
        }
    }

    /// Hands over the oldest envelope whose target has room.
    fn hand(&mut self, me: usize) -> bool {
        let backlog = &self.executors[me].backlog;
        let oldest = (0..backlog.len())
            .filter(|&target| self.executors[target].queue.len() < self.capacity)
            .filter_map(|target| backlog[target].front().map(|(age, _)| (*age, target)))
            .min();
        let Some((_, target)) = oldest else {
            return false;
        };
        let Some((_, envelope)) = self.executors[me].backlog[target].pop_front() else {
            return false;
        };
        self.executors[target].queue.push_back(envelope);
        true
    }

    fn drain(&mut self) {
        let channels = 0..self.channels.len();
        let executors = 0..self.executors.len();
        let mut moves: Vec<Move> = channels
            .flat_map(|c| [Move::Read(c), Move::Out(c)])
            .collect();
        moves.extend(executors.flat_map(|x| [Move::Task(x), Move::Hand(x)]));
        let mut goes_on = true;
        while goes_on {
            goes_on = false;
            for &step in &moves {
                goes_on |= self.apply(step);
            }
        }
    }
}

/// The moves of a text, each with its count.
fn read_moves(text: &str) -> Result<Vec<(Move, u64)>, &'static str> {
    if text.is_empty() {
        return Ok(Vec::new());
    }
    let words = text
        .split(' ')
        .map(read_word)
        .collect::<Option<Vec<_>>>()
        .ok_or("1 Form")?;
    if words.iter().map(|(_, count)| count).sum::<u64>() > 1_000_000 {
        return Err("2 Limit");
    }
    Ok(words)
}

fn read_word(word: &str) -> Option<(Move, u64)> {
    let letter = word.chars().next()?;
    let (number, count) = match word[letter.len_utf8()..].split_once('x') {
        Some((number, count)) => (number, decimal(count, 1..=1_000_000)?),
        None => (&word[letter.len_utf8()..], 1),
    };
    let number = decimal(number, 0..=65_535)? as usize;
    let step = match letter {
        'R' => Move::Read(number),
        'T' => Move::Task(number),
        'H' => Move::Hand(number),
        'O' => Move::Out(number),
        _ => return None,
    };
    Some((step, count))
}

fn decimal(text: &str, range: RangeInclusive<u64>) -> Option<u64> {
    let is_printed =
        text.bytes().all(|byte| byte.is_ascii_digit()) && (!text.starts_with('0') || text == "0");
    let number = text.parse().ok()?;
    (is_printed && range.contains(&number)).then_some(number)
}

// JSON.

enum Json {
    Null,
    Bool,
    /// A number, where it is a whole one.
    Number(Option<u64>),
    Text(Vec<u8>),
    Array(Vec<Json>),
    Object(Members),
}

struct Members(Vec<(Vec<u8>, Json)>);

/// Why a session is refused.
type Fault = &'static str;

const NOT_JSON: Fault = "1 NotJson";
const MISSING: Fault = "3 Missing";
const KIND: Fault = "4 Kind";
const LIMIT: Fault = "5 Limit";

impl Json {
    /// The value of a whole text.
    fn read(text: &[u8]) -> Option<Json> {
        let text = std::str::from_utf8(text).ok()?;
        let mut reader = Reader { text, at: 0 };
        let value = reader.value(127)?;
        reader.skip_space();
        (reader.at == text.len()).then_some(value)
    }

    fn whole(self, range: RangeInclusive<u64>) -> Result<u64, Fault> {
        match self {
            Json::Number(Some(number)) if range.contains(&number) => Ok(number),
            Json::Number(Some(_)) => Err(LIMIT),
            _ => Err(KIND),
        }
    }

    fn text(self) -> Result<Vec<u8>, Fault> {
        match self {
            Json::Text(text) => Ok(text),
            _ => Err(KIND),
        }
    }

    fn object(self) -> Result<Members, Fault> {
        match self {
            Json::Object(members) => Ok(members),
            _ => Err(KIND),
        }
    }

    /// Reads each element of an array of at most so many.
    fn array<T>(
        self,
        limit: usize,
        read: impl Fn(Json) -> Result<T, Fault>,
    ) -> Result<Vec<T>, Fault> {
        match self {
            Json::Array(elements) if elements.len() <= limit => {
                elements.into_iter().map(read).collect()
            }
            Json::Array(_) => Err(LIMIT),
            _ => Err(KIND),
        }
    }
}

impl Members {
    /// Takes a member out. Of those with one name the last counts.
    fn required(&mut self, name: &str) -> Result<Json, Fault> {
        let member = self
            .0
            .iter_mut()
            .rev()
            .find(|(given, _)| given == name.as_bytes());
        member
            .map(|(_, value)| mem::replace(value, Json::Null))
            .ok_or(MISSING)
    }

    fn optional(&mut self, name: &str) -> Option<Json> {
        self.required(name)
            .ok()
            .filter(|value| !matches!(value, Json::Null))
    }

    fn whole(&mut self, name: &str, range: RangeInclusive<u64>) -> Result<u64, Fault> {
        self.required(name)?.whole(range)
    }

    fn optional_whole(
        &mut self,
        name: &str,
        range: RangeInclusive<u64>,
    ) -> Result<Option<u64>, Fault> {
        self.optional(name)
            .map(|value| value.whole(range))
            .transpose()
    }
}

struct Reader<'a> {
    text: &'a str,
    at: usize,
}

impl Reader<'_> {
    fn peek(&self) -> Option<u8> {
        self.text.as_bytes().get(self.at).copied()
    }

    fn next(&mut self) -> Option<u8> {
        let byte = self.peek()?;
        self.at += 1;
        Some(byte)
    }

    fn accept(&mut self, byte: u8) -> bool {
        let is_there = self.peek() == Some(byte);
        self.at += usize::from(is_there);
        is_there
    }

    fn skip_space(&mut self) {
        while let Some(b' ' | b'\t' | b'\n' | b'\r') = self.peek() {
            self.at += 1;
        }
    }

    fn word(&mut self, word: &str, value: Json) -> Option<Json> {
        self.text
            .get(self.at..)?
            .starts_with(word)
            .then(|| self.at += word.len())?;
        Some(value)
    }

    /// Reads a value, with at most so many levels of arrays and objects.
    fn value(&mut self, levels: usize) -> Option<Json> {
        self.skip_space();
        match self.peek()? {
            b'n' => self.word("null", Json::Null),
            b't' => self.word("true", Json::Bool),
            b'f' => self.word("false", Json::Bool),
            b'"' => self.string().map(Json::Text),
            b'[' => self.array(levels.checked_sub(1)?),
            b'{' => self.object(levels.checked_sub(1)?),
            _ => self.number(),
        }
    }

    fn array(&mut self, levels: usize) -> Option<Json> {
        let mut elements = Vec::new();
        self.at += 1;
        self.skip_space();
        if self.accept(b']') {
            return Some(Json::Array(elements));
        }
        loop {
            elements.push(self.value(levels)?);
            self.skip_space();
            match self.next()? {
                b',' => {}
                b']' => return Some(Json::Array(elements)),
                _ => return None,
            }
        }
    }

    fn object(&mut self, levels: usize) -> Option<Json> {
        let mut members = Vec::new();
        self.at += 1;
        self.skip_space();
        if self.accept(b'}') {
            return Some(Json::Object(Members(members)));
        }
        loop {
            self.skip_space();
            let name = self.string()?;
            self.skip_space();
            self.accept(b':').then_some(())?;
            members.push((name, self.value(levels)?));
            self.skip_space();
            match self.next()? {
                b',' => {}
                b'}' => return Some(Json::Object(Members(members))),
                _ => return None,
            }
        }
    }

    fn number(&mut self) -> Option<Json> {
        let start = self.at;
        let mut is_whole = !self.accept(b'-');
        if !self.accept(b'0') {
            self.digits()?;
        }
        if self.accept(b'.') {
            is_whole = false;
            self.digits()?;
        }
        if self.accept(b'e') || self.accept(b'E') {
            is_whole = false;
            let _ = self.accept(b'+') || self.accept(b'-');
            self.digits()?;
        }
        let text = &self.text[start..self.at];
        text.parse::<f64>().ok()?.is_finite().then_some(())?;
        Some(Json::Number(text.parse().ok().filter(|_| is_whole)))
    }

    fn digits(&mut self) -> Option<()> {
        let start = self.at;
        while self.peek().is_some_and(|byte| byte.is_ascii_digit()) {
            self.at += 1;
        }
        (self.at > start).then_some(())
    }

    fn string(&mut self) -> Option<Vec<u8>> {
        self.accept(b'"').then_some(())?;
        let mut string = Vec::new();
        loop {
            let rest = &self.text.as_bytes()[self.at..];
            let plain = rest
                .iter()
                .position(|&byte| byte == b'"' || byte == b'\\' || byte < b' ')?;
            string.extend_from_slice(&rest[..plain]);
            self.at += plain;
            match self.next()? {
                b'"' => return Some(string),
                b'\\' => self.escape(&mut string)?,
                _ => return None,
            }
        }
    }

    fn escape(&mut self, string: &mut Vec<u8>) -> Option<()> {
        let byte = match self.next()? {
            byte @ (b'"' | b'\\' | b'/') => byte,
            b'b' => 8,
            b'f' => 12,
            b'n' => b'\n',
            b'r' => b'\r',
            b't' => b'\t',
            b'u' => {
                let mut buffer = [0; 4];
                string.extend_from_slice(self.unicode()?.encode_utf8(&mut buffer).as_bytes());
                return Some(());
            }
            _ => return None,
        };
        string.push(byte);
        Some(())
    }

    fn unicode(&mut self) -> Option<char> {
        let first = self.hex4()?;
        if !(0xd800..0xdc00).contains(&first) {
            return char::from_u32(first);
        }
        (self.accept(b'\\') && self.accept(b'u')).then_some(())?;
        let second = self.hex4()?;
        (0xdc00..0xe000).contains(&second).then_some(())?;
        char::from_u32(0x10000 + ((first - 0xd800) << 10) + (second - 0xdc00))
    }

    fn hex4(&mut self) -> Option<u32> {
        let mut number = 0;
        for _ in 0..4 {
            number = 16 * number + char::from(self.next()?).to_digit(16)?;
        }
        Some(number)
    }
}

// Sessions.

enum Place {
    First,
    Last,
    Before(Vec<u8>),
    After(Vec<u8>),
}

enum Edit {
    Add(Place, Named),
    Remove(Vec<u8>),
}

struct Named {
    name: Vec<u8>,
    handler: Handler,
    group: Option<Vec<u8>>,
}

struct Group {
    name: Vec<u8>,
    size: usize,
    /// Its first executor.
    first: usize,
    /// How many channels have a handler in it so far.
    users: usize,
}

struct Recorded {
    edits: Vec<Edit>,
    low: u64,
    high: u64,
    window: usize,
    fail_at: Option<u64>,
    bursts: Vec<Vec<Event>>,
    abort_after: Option<u64>,
}

struct Session {
    capacity: usize,
    loops: usize,
    groups: Vec<Group>,
    channels: Vec<Recorded>,
}

const MAX_TEXT: u64 = 33_554_432;
const MAX_EXECUTORS: usize = 64;
const MAX_HANDLERS: usize = 32;
const MAX_MARK: u64 = 1_073_741_824;

fn read_session(text: &[u8]) -> Result<Session, Fault> {
    if text.len() as u64 > MAX_TEXT {
        return Err(LIMIT);
    }
    let mut session = Json::read(text).ok_or(NOT_JSON)?.object()?;
    let version = session.whole("version", 0..=u64::MAX)?;
    if ![1, 2].contains(&version) {
        return Err("2 Version");
    }
    Ok(Session {
        capacity: session.whole("capacity", 1..=65_536)? as usize,
        loops: session.whole("loops", 1..=MAX_EXECUTORS as u64)? as usize,
        groups: match session.optional("groups") {
            Some(groups) => groups.array(usize::MAX, read_group)?,
            None => Vec::new(),
        },
        channels: session
            .required("channels")?
            .array(64, |channel| read_channel(version, channel))?,
    })
}

fn read_group(group: Json) -> Result<Group, Fault> {
    let mut group = group.object()?;
    let name = group.required("name")?.text()?;
    let size = group.whole("size", 0..=65_535)? as usize;
    Ok(Group {
        name,
        size,
        first: 0,
        users: 0,
    })
}

fn read_channel(version: u64, channel: Json) -> Result<Recorded, Fault> {
    let mut channel = channel.object()?;
    let edits = channel
        .required("handlers")?
        .array(256, |edit| read_edit(version, edit))?;
    let low = channel
        .optional_whole("low", 0..=MAX_MARK)?
        .unwrap_or(32_768);
    let high = channel
        .optional_whole("high", 0..=MAX_MARK)?
        .unwrap_or(65_536);
    let window = channel
        .optional_whole("window", 1..=65_536)?
        .unwrap_or(65_536) as usize;
    let fail_at = channel.optional_whole("fail_at", 1..=4_294_967_295)?;
    let bursts = channel.required("bursts")?.array(4_096, |burst| {
        burst.array(usize::MAX, |element| read_element(version, element))
    })?;
    let elements = || bursts.iter().flatten();
    if elements().count() > 16_384 || elements().map(bytes_in).sum::<usize>() > 1_048_576 {
        return Err(LIMIT);
    }
    let abort_after = channel.optional_whole("abort_after", 0..=bursts.len() as u64)?;
    Ok(Recorded {
        edits,
        low,
        high,
        window,
        fail_at,
        bursts,
        abort_after,
    })
}

/// The event of an element: a read of a chunk or, in version 2, a user event.
fn read_element(version: u64, element: Json) -> Result<Event, Fault> {
    match element {
        Json::Object(_) if version == 2 => {
            let number = element.object()?.whole("user", 0..=u64::from(u32::MAX))?;
            Ok(Event::User(number as u32))
        }
        chunk => Ok(Event::Read(Message::Bytes(read_chunk(version, chunk)?))),
    }
}

fn bytes_in(event: &Event) -> usize {
    match event {
        Event::Read(Message::Bytes(bytes)) => bytes.len(),
        _ => 0,
    }
}

/// The bytes of a text, or in version 2 those that its hex says.
fn read_chunk(version: u64, chunk: Json) -> Result<Vec<u8>, Fault> {
    let text = chunk.text()?;
    if version == 1 {
        return Ok(text);
    }
    let digit = |byte: u8| char::from(byte).to_digit(16).ok_or(KIND);
    let pairs = text.chunks_exact(2);
    if !pairs.remainder().is_empty() {
        return Err(KIND);
    }
    pairs
        .map(|pair| Ok((16 * digit(pair[0])? + digit(pair[1])?) as u8))
        .collect()
}

fn read_width(edit: &mut Members) -> Result<usize, Fault> {
    match edit.whole("width", 0..=u64::MAX)? {
        width @ (2 | 4) => Ok(width as usize),
        _ => Err(LIMIT),
    }
}

fn read_edit(version: u64, edit: Json) -> Result<Edit, Fault> {
    let mut edit = edit.object()?;
    let op = edit.required("op")?.text()?;
    if ![&b"first"[..], b"last", b"before", b"after", b"remove"].contains(&&op[..]) {
        return Err(KIND);
    }
    let name = edit.required("name")?.text()?;
    let place = match &op[..] {
        b"first" => Place::First,
        b"last" => Place::Last,
        b"before" => Place::Before(edit.required("at")?.text()?),
        b"after" => Place::After(edit.required("at")?.text()?),
        _ => return Ok(Edit::Remove(name)),
    };
    let handler = match &edit.required("kind")?.text()?[..] {
        b"lines" => {
            let max = edit.whole("max", 1..=8_192)? as usize;
            Handler::Lines(Lines {
                max,
                partial: Vec::new(),
                is_overlong: false,
            })
        }
        b"length" if version == 2 => {
            let width = read_width(&mut edit)?;
            Handler::Length(Length::new(width, edit.whole("max", 1..=8_192)?))
        }
        b"decode" => Handler::Decode,
        b"lineend" => Handler::LineEnd,
        b"prepend" if version == 2 => Handler::Prepend {
            width: read_width(&mut edit)?,
        },
        b"encode" => Handler::Encode,
        b"service" => Handler::Service(Service::default()),
        b"flush_every" => Handler::FlushEvery {
            n: edit.whole("n", 1..=65_535)?,
            held_back: 0,
        },
        _ => return Err(KIND),
    };
    let group = edit.optional("group").map(Json::text).transpose()?;
    Ok(Edit::Add(
        place,
        Named {
            name,
            handler,
            group,
        },
    ))
}

fn is_name(name: &[u8]) -> bool {
    (1..=64).contains(&name.len())
}

fn build(session: Session) -> Result<Net, Fault> {
    let Session {
        capacity,
        loops,
        mut groups,
        channels,
    } = session;
    let mut count = loops;
    for group in &mut groups {
        group.first = count;
        count += group.size;
    }
    let is_refused = |group: &Group| group.size == 0 || !is_name(&group.name);
    if count > MAX_EXECUTORS || groups.iter().any(is_refused) {
        return Err("6 Build 3 Limit");
    }
    let is_twice = |i: usize| groups[..i].iter().any(|group| group.name == groups[i].name);
    if (0..groups.len()).any(is_twice) {
        return Err("6 Build 1 DuplicateName");
    }
    let channels = channels
        .into_iter()
        .enumerate()
        .map(|(number, channel)| build_channel(channel, number % loops, &mut groups))
        .collect::<Result<_, _>>()?;
    let executor = || Executor {
        queue: VecDeque::new(),
        backlog: iter::repeat_with(VecDeque::new).take(count).collect(),
        made: 0,
    };
    Ok(Net {
        capacity,
        channels,
        executors: iter::repeat_with(executor).take(count).collect(),
        work: VecDeque::new(),
    })
}

fn edited(edits: Vec<Edit>) -> Result<Vec<Named>, Fault> {
    let mut handlers: Vec<Named> = Vec::new();
    for edit in edits {
        let place = |name: &[u8]| handlers.iter().position(|other| other.name == name);
        match edit {
            Edit::Add(_, added) if !is_name(&added.name) || handlers.len() == MAX_HANDLERS => {
                return Err("6 Build 3 Limit");
            }
            Edit::Add(_, added) if place(&added.name).is_some() => {
                return Err("6 Build 1 DuplicateName")
            }
            Edit::Add(at, added) => {
                let index = match at {
                    Place::First => Some(0),
                    Place::Last => Some(handlers.len()),
                    Place::Before(name) => place(&name),
                    Place::After(name) => place(&name).map(|index| index + 1),
                };
                handlers.insert(index.ok_or("6 Build 2 NoSuchName")?, added);
            }
            Edit::Remove(name) => {
                handlers.remove(place(&name).ok_or("6 Build 2 NoSuchName")?);
            }
        }
    }
    Ok(handlers)
}

/// A channel that lives on the loop `home`.
fn build_channel(recorded: Recorded, home: usize, groups: &mut [Group]) -> Result<Channel, Fault> {
    let handlers = edited(recorded.edits)?;
    if recorded.low > recorded.high {
        return Err("6 Build 7 Marks");
    }

    let mut used = vec![false; groups.len()];
    let mut executor = |name: &Option<Vec<u8>>| {
        let Some(name) = name else { return Ok(home) };
        let index = groups.iter().position(|group| group.name == *name);
        let index = index.ok_or("6 Build 4 NoSuchGroup")?;
        used[index] = true;
        Ok(groups[index].first + groups[index].users % groups[index].size)
    };
    let executors = handlers.iter().map(|named| executor(&named.group));
    let executors = executors.collect::<Result<Vec<usize>, Fault>>()?;
    for (group, is_used) in groups.iter_mut().zip(used) {
        group.users += usize::from(is_used);
    }

    // What goes up visits the inbound handlers and the turn, from the first on, and then the tail; what goes down the
    // outbound ones in front of the turn, from the nearest on, and then the head.
    let (mut inbound, mut outbound) = (Vec::new(), Vec::new());
    let (mut above, mut below) = (vec![home], vec![home]);
    let mut turns = 0;
    for (named, executor) in handlers.into_iter().zip(executors) {
        let direction = named.handler.direction();
        if direction != Direction::Outbound {
            turns += usize::from(direction == Direction::Turn);
            above.insert(inbound.len(), executor);
            inbound.push(named.handler);
        } else if turns == 0 {
            below.insert(0, executor);
            outbound.insert(0, named.handler);
        }
    }
    match turns {
        0 => return Err("6 Build 5 NoTurn"),
        1 => {}
        _ => return Err("6 Build 6 TwoTurns"),
    }
    above.append(&mut below);

    let tail = inbound.len() as u16;
    let contexts = |handlers: Vec<Handler>, first: u16| {
        let context = |(handler, hop): (Handler, u16)| {
            let (up, down) = match handler.direction() {
                Direction::Inbound => (Some(hop + 1), None),
                Direction::Turn => (Some(hop + 1), Some(tail + 1)),
                Direction::Outbound => (None, Some(hop + 1)),
            };
            Context {
                handler,
                state: State::Open,
                up,
                down,
            }
        };
        handlers.into_iter().zip(first..).map(context).collect()
    };

    let mut bursts = recorded.bursts;
    if let Some(count) = recorded.abort_after {
        bursts.truncate(count as usize);
    }
    Ok(Channel {
        executors: above,
        inbound: contexts(inbound, 0),
        tail: Tail {
            state: State::Open,
            events: Vec::new(),
        },
        outbound: contexts(outbound, tail + 1),
        head: Head {
            is_reading: true,
            is_active: false,
            bursts: bursts.into_iter(),
            aborts: recorded.abort_after.is_some(),
            buffer: VecDeque::new(),
            flushed: 0,
            offset: 0,
            outcomes: Vec::new(),
            transport: Transport {
                bytes: Vec::new(),
                window: recorded.window,
                fail_at: recorded.fail_at,
                calls: 0,
            },
            low: recorded.low,
            high: recorded.high,
            pending: 0,
            is_writable: true,
            state: State::Open,
            failure: None,
        },
    })
}

// The report.

fn push_text(text: &mut Vec<u8>, more: &str) {
    text.extend_from_slice(more.as_bytes());
}

fn push_number(text: &mut Vec<u8>, number: u64) {
    let mut digits = [0; 20];
    let mut start = digits.len();
    let mut left = number;
    loop {
        start -= 1;
        digits[start] = b'0' + (left % 10) as u8;
        left /= 10;
        if left == 0 {
            break;
        }
    }
    text.extend_from_slice(&digits[start..]);
}

fn push_hex(text: &mut Vec<u8>, bytes: &[u8]) {
    const DIGITS: &[u8; 16] = b"0123456789abcdef";
    if bytes.is_empty() {
        text.push(b'-');
    }
    text.reserve(2 * bytes.len());
    for byte in bytes {
        text.extend_from_slice(&[
            DIGITS[usize::from(byte >> 4)],
            DIGITS[usize::from(byte & 15)],
        ]);
    }
}

fn push_message(text: &mut Vec<u8>, message: &Message) {
    match message {
        Message::Bytes(bytes) => {
            push_text(text, "Bytes ");
            push_hex(text, bytes);
        }
        Message::Line(bytes) => {
            push_text(text, "Line ");
            push_hex(text, bytes);
        }
        Message::Command(Command::Ping) => push_text(text, "Ping"),
        Message::Command(Command::Quit) => push_text(text, "Quit"),
        Message::Command(Command::Echo(bytes)) => {
            push_text(text, "Echo ");
            push_hex(text, bytes);
        }
        Message::Command(Command::Add(key, number)) => {
            push_text(text, "Add ");
            text.extend_from_slice(key);
            text.push(b' ');
            push_number(text, u64::from(*number));
        }
        Message::Command(Command::Get(key)) => {
            push_text(text, "Get ");
            text.extend_from_slice(key);
        }
        Message::Reply(reply) => {
            let mut bytes = Vec::new();
            push_reply(&mut bytes, reply);
            push_text(text, "Reply ");
            push_hex(text, &bytes);
        }
    }
}

fn push_event(text: &mut Vec<u8>, event: &Event) {
    match event {
        Event::Active => push_text(text, "Active"),
        Event::ReadComplete => push_text(text, "ReadComplete"),
        Event::Flush => push_text(text, "Flush"),
        Event::Caught(Caught::TooLong) => push_text(text, "Caught TooLong"),
        Event::Caught(Caught::Unknown) => push_text(text, "Caught Unknown"),
        Event::Caught(Caught::Syntax) => push_text(text, "Caught Syntax"),
        Event::User(number) => {
            push_text(text, "User ");
            push_number(text, u64::from(*number));
        }
        Event::Read(message) => {
            push_text(text, "Read ");
            push_message(text, message);
        }
        Event::Write(message) => {
            push_text(text, "Write ");
            push_message(text, message);
        }
    }
    text.push(b'\n');
}

/// A word and a number.
fn push_count(text: &mut Vec<u8>, word: &str, count: usize) {
    push_text(text, word);
    text.push(b' ');
    push_number(text, count as u64);
}

fn push_channel(text: &mut Vec<u8>, number: usize, channel: &Channel) {
    let Channel { tail, head, .. } = channel;
    push_count(text, "channel", number);
    text.push(b' ');
    push_text(text, channel.stands());
    text.push(b'\n');

    push_count(text, "tail", tail.events.len());
    text.push(b'\n');
    for event in &tail.events {
        push_event(text, event);
    }

    push_count(text, "bytes", head.transport.bytes.len());
    text.push(b' ');
    push_hex(text, &head.transport.bytes);
    text.push(b'\n');

    push_count(text, "writes", head.outcomes.len());
    text.push(b'\n');
    for (number, outcome) in head.outcomes.iter().enumerate() {
        push_number(text, number as u64);
        push_text(
            text,
            match outcome {
                Outcome::Open => " Open\n",
                Outcome::Success => " Success\n",
                Outcome::Closed => " Closed\n",
                Outcome::Fault => " Fault\n",
                Outcome::Unsupported => " Unsupported\n",
            },
        );
    }
}

// The program.

/// A status, and the line that goes with it.
type Refusal = (u8, String);

const USAGE: &str = "usage: pl_tool replay [--moves MOVES] | run --queue waiting|ring | plain";

enum Request {
    Replay(String),
    Plain,
}

fn request(words: impl Iterator<Item = OsString>) -> Option<Request> {
    let words: Vec<String> = words
        .map(|word| word.into_string().ok())
        .collect::<Option<_>>()?;
    let words: Vec<&str> = words.iter().map(String::as_str).collect();
    match words.strip_suffix(&["--"]).unwrap_or(&words) {
        ["plain"] => Some(Request::Plain),
        ["replay"] => Some(Request::Replay(String::new())),
        ["replay", word] => word
            .strip_prefix("--moves=")
            .map(|moves| Request::Replay(moves.to_string())),
        ["replay", "--moves", moves] if !moves.starts_with('-') => {
            Some(Request::Replay(moves.to_string()))
        }
        _ => None,
    }
}

/// Whether every channel of the report that was written is drained.
fn run() -> Result<bool, Refusal> {
    let request = request(env::args_os().skip(1)).ok_or((2, USAGE.to_string()))?;
    let moves = match &request {
        Request::Replay(text) => {
            read_moves(text).map_err(|fault| (2, format!("moves refused: {fault}")))?
        }
        Request::Plain => Vec::new(),
    };
    let mut text = Vec::new();
    let read = io::stdin().lock().take(MAX_TEXT + 1).read_to_end(&mut text);
    read.map_err(|_| (3, "input refused".to_string()))?;

    let refused = |fault| (3, format!("session refused: {fault}"));
    let mut session = read_session(&text).map_err(refused)?;
    if let Request::Plain = request {
        for channel in &mut session.channels {
            channel.fail_at = None;
            channel.abort_after = None;
        }
    }
    let mut net = build(session).map_err(refused)?;
    if !moves.iter().all(|(step, _)| net.has(*step)) {
        return Err((2, "replay refused: 1 NoSuch".to_string()));
    }
    for (step, count) in moves {
        for _ in 0..count {
            net.apply(step);
        }
    }
    if let Request::Plain = request {
        net.drain();
    }

    let mut report = Vec::new();
    for (number, channel) in net.channels.iter().enumerate() {
        push_channel(&mut report, number, channel);
    }
    let mut output = io::stdout().lock();
    let written = output.write_all(&report).and_then(|()| output.flush());
    written.map_err(|_| (4, "output refused".to_string()))?;
    Ok(net
        .channels
        .iter()
        .all(|channel| channel.stands() == "drained"))
}

fn main() -> ExitCode {
    match run() {
        Ok(true) => ExitCode::SUCCESS,
        Ok(false) => ExitCode::from(1),
        Err((status, line)) => {
            let _ = writeln!(io::stderr(), "{line}");
            ExitCode::from(status)
        }
    }
}
