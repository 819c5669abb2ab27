//! Things to test with, all from a seed: drill scripts that crash, restart,
//! retry, lose, repeat and delay messages at every place; stores and records,
//! sound or damaged.

use baseline::drill::Drill;
use baseline::layout::{self, Letter, Message, Record, RECORD_BYTES};
use baseline::node::{Phase, Stage};
use baseline::store::{self, Store, RECORDS, STORE_BYTES};
use baseline::{Attempt, Incarnation, Index, Item, MAX_NODES};

/// A small random number generator (splitmix64): the same seed gives the same
/// numbers everywhere.
#[derive(Clone, Debug)]
pub struct Random(u64);

impl Random {
    pub fn new(seed: u64) -> Random {
        Random(seed)
    }

    pub fn number(&mut self) -> u64 {
        self.0 = self.0.wrapping_add(0x9e37_79b9_7f4a_7c15);
        let mut mixed = self.0;
        mixed = (mixed ^ mixed >> 30).wrapping_mul(0xbf58_476d_1ce4_e5b9);
        mixed = (mixed ^ mixed >> 27).wrapping_mul(0x94d0_49bb_1331_11eb);
        mixed ^ mixed >> 31
    }

    /// A number below the bound, which is above 0.
    pub fn below(&mut self, bound: usize) -> usize {
        (self.number() % bound as u64) as usize
    }

    pub fn percent(&mut self, chance: usize) -> bool {
        self.below(100) < chance
    }

    /// One of the choices, of which there is at least one.
    pub fn pick<'a, T>(&mut self, choices: &'a [T]) -> &'a T {
        &choices[self.below(choices.len())]
    }

    /// One of the choices, if there are any.
    fn any<T: Copy>(&mut self, choices: &[T]) -> Option<T> {
        if choices.is_empty() {
            None
        } else {
            Some(*self.pick(choices))
        }
    }

    pub fn group_size(&mut self) -> u8 {
        *self.pick(&[3, 3, 3, 5, 5, 7, 9, 11, 13, 15])
    }
}

/// Which message is delivered first.
#[derive(Clone, Copy, Debug)]
enum Order {
    Oldest,
    Newest,
    Any,
}

/// What a script is given to: how often each call comes, out of their sum,
/// and how messages are treated. Each script has habits of its own, so that
/// some settle much, some crash much, and some fill the store.
struct Habits {
    write: usize,
    retry: usize,
    crash: usize,
    start: usize,
    drop: usize,
    deliver: usize,
    story: usize,
    odd: usize,
    order: Order,
    /// Percent of deliveries that repeat a message delivered before.
    repeat: usize,
    /// Percent of deliveries after which the message is dropped.
    clean: usize,
    /// How many different small tags are written.
    tags: usize,
}

impl Habits {
    fn choose(random: &mut Random) -> Habits {
        Habits {
            write: *random.pick(&[2, 6, 12]),
            retry: *random.pick(&[0, 1, 4, 10]),
            crash: *random.pick(&[0, 1, 3, 8]),
            start: *random.pick(&[2, 4, 8]),
            drop: *random.pick(&[0, 2, 10]),
            deliver: *random.pick(&[30, 60, 90]),
            story: *random.pick(&[0, 2, 8, 20]),
            odd: *random.pick(&[0, 1, 3]),
            order: *random.pick(&[Order::Oldest, Order::Oldest, Order::Newest, Order::Any]),
            repeat: *random.pick(&[0, 5, 25]),
            clean: *random.pick(&[0, 50, 90, 100]),
            tags: *random.pick(&[1, 2, 3, 50]),
        }
    }
}

/// A script being made. It is run as it grows, so that the lines can name
/// records that hold messages and nodes in the stage wanted.
struct Author<'a> {
    random: &'a mut Random,
    habits: Habits,
    drill: Drill,
    script: Vec<u8>,
    answers: Vec<u8>,
    /// How many lines the script has.
    lines: usize,
    /// Records in the order in which they were first seen to hold a message.
    arrivals: Vec<u16>,
    /// Which records are among the arrivals.
    held: [bool; RECORDS],
    /// Which of these have been delivered or are held back.
    delivered: [bool; RECORDS],
}

/// A script of about as many lines.
pub fn script(random: &mut Random, lines: usize) -> Vec<u8> {
    let n = random.group_size();
    script_for(random, n, lines)
}

/// A script of about as many lines that begins with this group size.
pub fn script_for(random: &mut Random, n: u8, lines: usize) -> Vec<u8> {
    let mut author = Author::new(random);
    while author.random.percent(10) {
        author.odd_line();
    }
    author.line(format_args!("n {n}"));
    while author.lines < lines {
        author.next_line();
    }
    if author.random.percent(5) {
        let tail = *author.random.pick(&[&b"d 1"[..], b"n 3", b"x", b" "]);
        author.script.extend_from_slice(tail);
    }
    author.script
}

/// Three scripts that begin with this group size: one of any length up to so
/// many lines, one in which rows part, and one that fills the store.
pub fn scripts_for(random: &mut Random, n: u8, lines: usize) -> [Vec<u8>; 3] {
    let length = 1 + random.below(lines);
    let script = script_for(random, n, length);
    [script, parted_rows(random, n), full_store(random, n)]
}

/// A script in which the rows of some nodes part and another node returns.
pub fn parted_rows(random: &mut Random, n: u8) -> Vec<u8> {
    let mut author = Author::new(random);
    author.line(format_args!("n {n}"));
    let node = author.random.below(n.into()) as u64;
    author.part_and_come_back(node);
    author.script
}

/// A script in which a node returns while the store is full.
pub fn full_store(random: &mut Random, n: u8) -> Vec<u8> {
    let mut author = Author::new(random);
    author.habits.clean = 0;
    author.line(format_args!("n {n}"));
    let node = author.random.below(n.into()) as u64;
    author.come_back_in_a_full_store(node);
    author.script
}

/// A script of whole writes, one node after the other, each message delivered
/// and dropped, while about `held` more messages lie in the store. It has at
/// least as many lines, all of them read; for measuring.
pub fn settling(n: u8, held: usize, lines: usize) -> Vec<u8> {
    let mut random = Random::new(1);
    let mut author = Author::new(&mut random);
    author.habits.clean = 100;
    author.line(format_args!("n {n}"));
    let absent = n - 1;
    if held > 0 {
        author.line(format_args!("c {absent}"));
        author.line(format_args!("s {absent}"));
    }
    while author.arrivals.len() + usize::from(n) <= held {
        author.line(format_args!("r {absent}"));
    }
    author.hold_back();
    for turn in 0.. {
        if author.lines >= lines {
            break;
        }
        let node = turn % u64::from(absent);
        author.line(format_args!("w {node} {turn}"));
        while let Some(record) = author.fresh().first() {
            author.deliver_record(*record);
        }
    }
    author.script
}

impl<'a> Author<'a> {
    fn new(random: &'a mut Random) -> Author<'a> {
        Author {
            habits: Habits::choose(random),
            random,
            drill: Drill::new(),
            script: Vec::new(),
            answers: Vec::new(),
            lines: 0,
            arrivals: Vec::new(),
            held: [false; RECORDS],
            delivered: [false; RECORDS],
        }
    }

    /// Add a line and run it.
    fn line(&mut self, line: std::fmt::Arguments) {
        self.bytes(line.to_string().as_bytes());
    }

    fn bytes(&mut self, line: &[u8]) {
        let start = self.script.len();
        self.script.extend_from_slice(line);
        self.script.push(b'\n');
        self.drill.feed(&self.script[start..], &mut self.answers);
        self.answers.clear();
        self.lines += 1;
        self.notice();
    }

    /// Find out which records hold messages now.
    fn notice(&mut self) {
        let (_, store) = self.drill.state();
        let holds = |record: u16| store[usize::from(record) * RECORD_BYTES + 2] != 0;
        self.arrivals.retain(|record| holds(*record));
        for record in 1..RECORDS as u16 {
            let at = usize::from(record);
            if holds(record) && !self.held[at] {
                self.arrivals.push(record);
                self.delivered[at] = false;
            }
            self.held[at] = holds(record);
        }
    }

    fn next_line(&mut self) {
        let Habits { write, retry, crash, start, drop, deliver, story, odd, .. } = self.habits;
        let sum = write + retry + crash + start + drop + deliver + story + odd;
        let mut left = self.random.below(sum);
        let mut chosen = |weight: usize| {
            let passed = left >= weight;
            left -= if passed { weight } else { 0 };
            !passed
        };
        if chosen(deliver) {
            self.deliver();
        } else if chosen(story) {
            self.story();
        } else if chosen(write) {
            self.write();
        } else if chosen(retry) {
            self.retry();
        } else if chosen(crash) {
            let node = self.node(is_busy);
            self.line(format_args!("c {node}"));
        } else if chosen(start) {
            self.start();
        } else if chosen(drop) {
            let record = self.random.any(&self.arrivals).unwrap_or(1);
            self.line(format_args!("x {record}"));
        } else {
            self.odd_line();
        }
    }

    /// Start what is down, retry what is stuck, or write.
    fn go_on(&mut self) {
        let phases: Vec<Phase> = self.drill.state().0.iter().map(|node| node.phase).collect();
        match self.random.below(3) {
            0 if phases.contains(&Phase::Down) => self.start(),
            1 if phases.iter().any(is_busy) => self.retry(),
            _ => self.write(),
        }
    }

    fn start(&mut self) {
        let node = self.node(|phase| *phase == Phase::Down);
        self.line(format_args!("s {node}"));
    }

    fn retry(&mut self) {
        let node = self.node(is_busy);
        self.line(format_args!("r {node}"));
    }

    /// Mostly a node in a wanted phase, else any number about the group's size.
    fn node(&mut self, wanted: impl Fn(&Phase) -> bool) -> u64 {
        let (nodes, _) = self.drill.state();
        let fitting: Vec<u64> = nodes
            .iter()
            .filter(|node| wanted(&node.phase))
            .map(|node| node.number.into())
            .collect();
        let any = self.random.below(nodes.len() + 1) as u64;
        match self.random.any(&fitting) {
            Some(node) if self.random.percent(85) => node,
            _ => any,
        }
    }

    fn write(&mut self) {
        let node = self.node(|phase| *phase == Phase::Up(Stage::Idle));
        let tag = match self.random.below(20) {
            0 => u64::MAX,
            1 => self.random.number(),
            _ => self.random.below(self.habits.tags) as u64,
        };
        self.line(format_args!("w {node} {tag}"));
    }

    /// Deliver a message: mostly one not delivered yet, in the script's order.
    /// If there is none, mostly begin something new.
    fn deliver(&mut self) {
        let fresh = self.fresh();
        if fresh.is_empty() && self.random.percent(80) {
            return self.go_on();
        }
        let record = match self.next_of(&fresh) {
            Some(record) if !self.random.percent(self.habits.repeat) => record,
            _ => self.random.any(&self.arrivals).unwrap_or(self.habits.tags as u16),
        };
        self.deliver_record(record);
    }

    /// The one of some messages, by arrival, that the script's order takes next.
    fn next_of(&mut self, messages: &[u16]) -> Option<u16> {
        match self.habits.order {
            Order::Oldest => messages.first().copied(),
            Order::Newest => messages.last().copied(),
            Order::Any => self.random.any(messages),
        }
    }

    fn deliver_record(&mut self, record: u16) {
        self.delivered[usize::from(record)] = true;
        self.line(format_args!("d {record}"));
        if self.random.percent(self.habits.clean) {
            self.line(format_args!("x {record}"));
        }
    }

    /// The messages not delivered yet, by arrival.
    fn fresh(&self) -> Vec<u16> {
        let is_fresh = |record: &u16| !self.delivered[usize::from(*record)];
        self.arrivals.iter().copied().filter(is_fresh).collect()
    }

    /// A longer course of calls about one node, broken off now and then: a
    /// write, a return, a row that parts and then another node's return, or a
    /// peer's return in the midst of a write.
    fn story(&mut self) {
        self.tidy();
        let node = self.node(|phase| *phase == Phase::Up(Stage::Idle));
        match self.random.below(5) {
            0 => {
                let tag = self.random.below(self.habits.tags);
                self.line(format_args!("w {node} {tag}"));
                self.exchange(node);
            }
            1 => self.come_back(node),
            2 => {
                let clean = std::mem::take(&mut self.habits.clean);
                self.repeat_after_return(node);
                self.habits.clean = clean;
            }
            _ => self.part_and_come_back(node),
        }
    }

    /// Rows part, and then another node returns.
    fn part_and_come_back(&mut self, node: u64) {
        self.part(node);
        if self.random.percent(40) {
            let second = self.node(|phase| *phase == Phase::Up(Stage::Idle));
            self.part(second);
        }
        let other = self.node(|phase| *phase == Phase::Up(Stage::Idle));
        self.come_back(other);
    }

    /// Two writes of one index: the first comes late and only to some.
    fn part(&mut self, node: u64) {
        self.line(format_args!("w {node} 1"));
        let late = self.hold_back();
        self.come_back(node);
        self.line(format_args!("w {node} 2"));
        for _ in 0..1 + self.random.below(3) {
            self.deliver();
        }
        let some = 1 + self.random.below(late.len() + 1);
        late.into_iter().take(some).for_each(|record| self.deliver_record(record));
        if self.random.percent(50) {
            self.exchange(node);
            self.line(format_args!("w {node} 3"));
            for _ in 0..1 + self.random.below(2) {
                self.deliver();
            }
        }
    }

    /// Only some know a node's newest item when it restarts, and while it waits
    /// for its last table the store is full for a while: what is refused then
    /// must leave no trace.
    fn come_back_in_a_full_store(&mut self, node: u64) {
        self.line(format_args!("w {node} 5"));
        for _ in 0..self.random.below(4) {
            self.deliver_about(node);
        }
        self.hold_back();
        self.line(format_args!("c {node}"));
        self.line(format_args!("s {node}"));
        while self.lacks_tables(node) && self.deliver_about(node) {}
        let filled = self.fill();
        for _ in 0..self.random.below(6) {
            self.deliver_about(node);
        }
        filled.into_iter().for_each(|record| self.line(format_args!("x {record}")));
        self.delivered = [false; RECORDS];
        self.exchange(node);
    }

    /// Does a node want more than one table yet?
    fn lacks_tables(&self, node: u64) -> bool {
        let (nodes, _) = self.drill.state();
        let node = nodes.iter().find(|other| u64::from(other.number) == node);
        node.is_some_and(|node| node.counted.len() < node.f())
    }

    /// Have some node send until there is no room; the records that it filled.
    fn fill(&mut self) -> Vec<u16> {
        let before = self.held;
        let node = self.node(|phase| *phase == Phase::Up(Stage::Idle));
        self.line(format_args!("w {node} 6"));
        loop {
            let held = self.arrivals.len();
            self.line(format_args!("r {node}"));
            if self.arrivals.len() == held {
                break;
            }
        }
        self.arrivals.iter().copied().filter(|record| !before[usize::from(*record)]).collect()
    }

    /// A peer restarts while the node writes, and then everything that was
    /// sent comes again.
    fn repeat_after_return(&mut self, node: u64) {
        self.line(format_args!("w {node} 4"));
        for _ in 0..self.random.below(30) {
            self.deliver();
        }
        let sent = self.arrivals.clone();
        let peer = self.node(|phase| *phase == Phase::Up(Stage::Idle));
        self.come_back(peer);
        sent.into_iter().for_each(|record| self.deliver_record(record));
    }

    fn come_back(&mut self, node: u64) {
        self.line(format_args!("c {node}"));
        self.line(format_args!("s {node}"));
        self.exchange(node);
    }

    /// Deliver what goes to and from a node, in the script's order, until
    /// nothing is left of it.
    fn exchange(&mut self, node: u64) {
        while !self.random.percent(2) && self.deliver_about(node) {}
    }

    /// Deliver a message to or from a node; false if there is none.
    fn deliver_about(&mut self, node: u64) -> bool {
        let (_, store) = self.drill.state();
        let ends = |record: u16| store[usize::from(record) * RECORD_BYTES + 3];
        let is_about = |record: &u16| {
            u64::from(ends(*record) >> 4) == node || u64::from(ends(*record) & 15) == node
        };
        let about: Vec<u16> = self.fresh().into_iter().filter(is_about).collect();
        let next = self.next_of(&about);
        next.into_iter().for_each(|record| self.deliver_record(record));
        next.is_some()
    }

    /// Keep all messages not delivered yet from being chosen for now.
    fn hold_back(&mut self) -> Vec<u16> {
        let fresh = self.fresh();
        fresh.iter().for_each(|record| self.delivered[usize::from(*record)] = true);
        fresh
    }

    /// Drop most messages if the store is getting full.
    fn tidy(&mut self) {
        if self.arrivals.len() < RECORDS / 2 {
            return;
        }
        for record in self.arrivals.clone() {
            if self.random.percent(80) {
                self.line(format_args!("x {record}"));
            }
        }
    }

    /// A line that is unread, refused, or starts afresh.
    fn odd_line(&mut self) {
        match self.random.below(12) {
            0 => self.bytes(b""),
            1 => {
                let n = self.random.below(20);
                self.line(format_args!("n {n}"));
            }
            2 => {
                let number = *self.random.pick(&HUGE);
                let letter = *self.random.pick(&['n', 'r', 'c', 's', 'd', 'x', 'w']);
                let tag = if letter == 'w' { " 7" } else { "" };
                self.line(format_args!("{letter} {number}{tag}"));
            }
            3 => {
                let record = self.random.below(300);
                let letter = *self.random.pick(&['d', 'x']);
                self.line(format_args!("{letter} {record}"));
            }
            4 => {
                let length = self.random.below(200);
                let digit = *self.random.pick(b"0178 ");
                self.bytes(&[b"d 1", vec![digit; length].as_slice()].concat());
            }
            5 => {
                let noise: Vec<u8> =
                    (0..self.random.below(12)).map(|_| self.random.number() as u8).collect();
                self.bytes(&noise.into_iter().filter(|byte| *byte != b'\n').collect::<Vec<u8>>());
            }
            _ => {
                let line = *self.random.pick(&MISSPELT);
                self.bytes(line);
            }
        }
    }
}

/// Does the node wait for answers?
fn is_busy(phase: &Phase) -> bool {
    !matches!(phase, Phase::Down | Phase::Up(Stage::Idle))
}

/// Numbers at and beyond the ends of 16, 32 and 64 bits.
const HUGE: [&str; 10] = [
    "255",
    "256",
    "259",
    "65537",
    "4294967295",
    "4294967296",
    "18446744073709551615",
    "18446744073709551616",
    "18446744073709551619",
    "99999999999999999999",
];

/// Lines that are nearly right.
const MISSPELT: [&[u8]; 22] = [
    b"n", b"n ", b"n 03", b"n 3 ", b" n 3", b"n  3", b"n 3 3", b"N 3", b"n3", b"n 3\r", b"n\t3",
    b"w 0", b"w 0 ", b"w 0 1 2", b"w 0  1", b"w 0 01", b"d -1", b"d +1", b"d 1\0", b"q 0", b"r 00",
    b"d 0x1",
];

/// The group size and bytes of a sound store with messages, from a run of
/// about as many lines.
pub fn store(random: &mut Random, lines: usize) -> (u8, Vec<u8>) {
    let n = random.group_size();
    let script = script_for(random, n, lines);
    let mut drill = Drill::new();
    drill.feed(&script, &mut Vec::new());
    let (nodes, store) = drill.state();
    (nodes.len() as u8, store.to_vec())
}

/// A sound store of n nodes with so many messages of all kinds, one after the
/// other, at all nodes in turn.
pub fn store_with(n: u8, held: usize) -> Vec<u8> {
    let mut random = Random::new(1);
    let mut bytes = vec![0; STORE_BYTES];
    let set_up = store::set_up(&mut bytes, n);
    debug_assert!(set_up.is_ok());
    if let Ok(mut store) = Store::open(&mut bytes) {
        for (turn, kind) in (0..held as u64).zip((1..=6).cycle()) {
            let addressee = (turn % u64::from(n)) as u8;
            let sender = (addressee + 1) % n;
            let letter = Letter { sender, addressee, ..letter(&mut random, kind, n) };
            // Beyond 239 messages there is no room, and the store stays full.
            let _ = store.put(&letter);
        }
    }
    bytes
}

/// Damage a store in one of many ways. A few of these leave it sound.
pub fn damage_store(random: &mut Random, store: &mut Vec<u8>) {
    let (one, two) = (random.below(RECORDS), random.below(RECORDS));
    let at = |record: usize| record * RECORD_BYTES;
    match random.below(10) {
        0 => {
            let offset = random.below(store.len());
            store[offset] = random.number() as u8;
        }
        1 => {
            let offset = random.below(store.len());
            store[offset] ^= 1 << random.below(8);
        }
        2 => store[at(one)..at(one) + 2].copy_from_slice(&(random.below(260) as u16).to_le_bytes()),
        3 => {
            let inbox = 4 + 2 * random.below(MAX_NODES + 1);
            store[inbox..inbox + 2].copy_from_slice(&(two as u16).to_le_bytes());
        }
        4 => store.truncate(store.len() - 1 - random.below(RECORD_BYTES)),
        5 => store.resize(store.len() + 1 + random.below(RECORD_BYTES), 0),
        6 => store[2] = random.below(20) as u8,
        7 => store.copy_within(at(one)..at(one) + RECORD_BYTES, at(two)),
        8 => {
            let next = [store[at(one)], store[at(one) + 1]];
            store.copy_within(at(two)..at(two) + 2, at(one));
            store[at(two)..at(two) + 2].copy_from_slice(&next);
        }
        _ => store[at(one) + 2] = random.below(8) as u8,
    }
}

/// A letter of this kind, 1 to 6, with any fields it may have.
pub fn letter(random: &mut Random, kind: u8, n: u8) -> Letter {
    let item = item(random);
    let other = Incarnation(random.number() as u32);
    let attempt = Attempt(random.number() as u32);
    let message = match kind {
        1 => Message::Store { attempt, item },
        2 => Message::Stored { other, attempt, item },
        3 => Message::Confirm { other, attempt, item },
        4 => Message::Confirmed { other, attempt, item },
        5 => Message::Fetch,
        _ => {
            let mut rows = [Item::ZERO; MAX_NODES];
            rows.iter_mut().take(n.into()).for_each(|row| *row = self::item(random));
            Message::Table { other, rows }
        }
    };
    Letter {
        sender: random.below(16) as u8,
        addressee: random.below(16) as u8,
        incarnation: Incarnation(random.number() as u32),
        message,
    }
}

fn item(random: &mut Random) -> Item {
    Item { index: Index(random.number() >> random.below(64)), tag: random.number() }
}

/// The bytes of a readable record of this kind.
pub fn record(random: &mut Random, kind: u8, n: u8) -> Record {
    let mut record = [0; RECORD_BYTES];
    layout::put_letter(&mut record, &letter(random, kind, n), n);
    layout::set_next(&mut record, random.number() as u16);
    record
}
