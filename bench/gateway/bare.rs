//! A gateway's work in plain Rust, without contracts: what bench/gateway.py sets beside crates/bench. The words are
//! the same, and so is the order of what is decided: whether a frame is for the box, whether its packet is an Echo to it,
//! VRRP and ARP set apart, hairpins, hosts that are none, the pair (one look-up a way: outward by a keyed hash of its
//! endpoint, inward by an array of ports), the next hop among the fixed and the learnt neighbours with their age, the
//! packet's length beside the side's mtu. Room is made before anything is written, frames are written behind others and
//! rewritten by increments, the session is followed, the idle time renewed, what happened is noted, and a datagram is sent
//! where one is due. A new pair is proposed to the other box, its packet waits, and goes once the record of its
//! acceptance came. A box that starts loads the other's table in batches; ports are words of bits.
//!
//! What it leaves out: answers to ARP, hairpins, ICMP errors and what the box says of itself; deletions, so that it never
//! drops a pair; two proposals that cross; lost and repeated datagrams, which it refuses by their numbers and boots and
//! doesn't mend; a box that gives way.
//!
//! usage: bare packets COUNT PAIRS..; kind|synced SIDE PROTOCOL SIZE COUNT PAIRS; new COUNT; lone COUNT; pair COUNT PAIRS;
//! idle COUNT PAIRS; still COUNT PAIRS; ports want|begin|batch COUNT; start
use std::collections::{HashMap, VecDeque};
use std::hash::{BuildHasher, Hash, Hasher};
use std::time::Instant;

const HEADER: usize = 14;
const LONGEST: usize = HEADER + 1500;
/// The ports of a protocol that the first box has.
const PORTS: u32 = 20_000;
const FIRST_INSIDE: u32 = 5000;
const FIRST_OUTSIDE: u32 = 20_000;
/// The next packet's pair lies so many above this one's, so that they aren't found in order.
const STRIDE: u32 = 7919;
/// The sessions that a pair keeps.
const SESSIONS: usize = 4;

type Mac = [u8; 6];

const BROADCAST: Mac = [0xff; 6];
/// The group to which advertisements go.
const VRRP: Mac = [1, 0, 0x5e, 0, 0, 0x12];
const VRRP_GROUP: u32 = 0xe000_0012;
/// For how long a neighbour is valid that was learnt, after how long it is asked for again, and how often, in centiseconds.
const VALID_FOR: u64 = 120_000;
const RENEWED_AFTER: u64 = 90_000;
const ASKED_AFTER: u64 = 100;
const QUERY_REST: u64 = 6000;
const UDP_REST: u64 = 30_000;
const TRANSITORY_REST: u64 = 24_000;
const ESTABLISHED_REST: u64 = 744_000;
/// When the first box's routers are Active.
const ACTIVE: u64 = 360;
/// Between two advertisements, between two datagrams at least, and for how long a peer counts as heard.
const ADVERT_INTERVAL: u64 = 100;
const LINK_INTERVAL: u64 = 10;
const HEARD_FOR: u64 = 300;
const DATAGRAM_HEADER: usize = 56;
const LONGEST_DATAGRAM: usize = 2232;
/// What both boxes run on, as a datagram says it: two ranges of ports, two addresses, two prefix lengths.
const VALUES: [u8; 18] = [0x4e, 0x20, 0x9c, 0x3f, 0x9c, 0x40, 0xea, 0x5f, 192, 168, 1, 1, 192, 0, 2, 1, 24, 24];
const RECORDS: usize = 64;
/// So many records may wait.
const PLACES: usize = 240_066;
/// So many packets may wait.
const HELD: usize = 64;
const NO_SLOT: u32 = u32::MAX;

#[derive(Clone, Copy, PartialEq, Eq, Debug)]
enum Side {
    Inside,
    Outside,
}

#[derive(Clone, Copy, PartialEq, Eq, Hash, Debug)]
enum Protocol {
    Icmp,
    Tcp,
    Udp,
}

impl Protocol {
    fn number(self) -> u8 {
        match self {
            Protocol::Icmp => 1,
            Protocol::Tcp => 6,
            Protocol::Udp => 17,
        }
    }

    fn numbered(number: u8) -> Option<Protocol> {
        match number {
            1 => Some(Protocol::Icmp),
            6 => Some(Protocol::Tcp),
            17 => Some(Protocol::Udp),
            _ => None,
        }
    }
}

#[derive(Clone, Copy, PartialEq, Eq, Debug)]
struct Endpoint {
    protocol: Protocol,
    address: u32,
    port: u16,
}

impl Hash for Endpoint {
    fn hash<H: Hasher>(&self, state: &mut H) {
        state.write_u64((self.protocol as u64) << 48 | u64::from(self.address) << 16 | u64::from(self.port));
    }
}

/// Multiplies by a drawn number of 128 bits and takes the high half: of any two numbers the hashes are independent over the
/// draw (multiply-shift, Dietzfelbinger 1996).
#[derive(Clone, Copy)]
struct Keyed {
    factor: u128,
    summand: u128,
    state: u64,
}

impl Hasher for Keyed {
    fn finish(&self) -> u64 {
        self.state
    }

    fn write(&mut self, bytes: &[u8]) {
        for part in bytes.chunks(8) {
            let mut word = [0; 8];
            word[..part.len()].copy_from_slice(part);
            self.write_u64(u64::from_le_bytes(word));
        }
    }

    fn write_u64(&mut self, number: u64) {
        let number = u128::from(number ^ self.state);
        self.state = (self.factor.wrapping_mul(number).wrapping_add(self.summand) >> 64) as u64;
    }
}

#[derive(Clone, Copy)]
struct Keys(Keyed);

impl Keys {
    /// Always the same, so that each run takes the same instructions.
    fn fixed() -> Keys {
        Keys(Keyed { factor: 0x9e37_79b9_7f4a_7c15_f39c_c060_5ced_c835, summand: 0x2545_f491_4f6c_dd1d_9e6c_63d0_876a_4f21, state: 0 })
    }
}

impl BuildHasher for Keys {
    type Hasher = Keyed;

    fn build_hasher(&self) -> Keyed {
        self.0
    }
}

#[derive(Clone, Copy, PartialEq, Eq, Debug)]
struct Key {
    protocol: Protocol,
    port: u16,
}

impl Key {
    fn cell(self) -> usize {
        (self.protocol as usize) << 16 | usize::from(self.port)
    }
}

#[derive(Clone, Copy, PartialEq, Eq, Debug)]
struct Pair {
    key: Key,
    endpoint: Endpoint,
}

// ---- what pairs carried

#[derive(Clone, Copy, PartialEq, Eq)]
struct Remote {
    address: u32,
    port: u16,
}

#[derive(Clone, Copy, PartialEq, Eq)]
enum Class {
    Opening,
    Established,
    Closed,
}

impl Class {
    fn rest(self) -> u64 {
        if self == Class::Established { ESTABLISHED_REST } else { TRANSITORY_REST }
    }
}

#[derive(Clone, Copy)]
struct Session {
    remote: Remote,
    class: Class,
    carried: [bool; 2],
    finished: [bool; 2],
    last: u64,
}

const NO_SESSION: Session =
    Session { remote: Remote { address: 0, port: 0 }, class: Class::Closed, carried: [false; 2], finished: [false; 2], last: 0 };

#[derive(Clone, Copy, PartialEq, Eq)]
enum Standing {
    Pending,
    Live,
    Held,
}

struct Entry {
    pair: Pair,
    standing: Standing,
    last: u64,
    /// When it is looked at again: at the latest when it is idle.
    due: u64,
    sessions: [Session; SESSIONS],
    count: usize,
}

impl Entry {
    fn new(pair: Pair, standing: Standing, now: u64) -> Entry {
        let mut entry = Entry { pair, standing, last: now, due: 0, sessions: [NO_SESSION; SESSIONS], count: 0 };
        entry.due = entry.end();
        entry
    }

    fn translates(&self) -> bool {
        matches!(self.standing, Standing::Live | Standing::Held)
    }

    /// When the pair is idle, if it carries nothing more.
    fn end(&self) -> u64 {
        match self.pair.key.protocol {
            Protocol::Icmp => self.last + QUERY_REST,
            Protocol::Udp => self.last + UDP_REST,
            Protocol::Tcp => {
                let ends = self.sessions[..self.count].iter().map(|session| session.last + session.class.rest());
                ends.max().unwrap_or(self.last + ESTABLISHED_REST)
            }
        }
    }

    /// A packet of this pair goes on.
    fn follow(&mut self, way: usize, remote: Remote, flags: u8, now: u64) {
        self.last = now;
        if self.pair.key.protocol != Protocol::Tcp {
            return;
        }
        let (fin, syn, rst, ack) = (flags & 1 != 0, flags & 2 != 0, flags & 4 != 0, flags & 16 != 0);
        let Some(session) = self.sessions[..self.count].iter_mut().find(|session| session.remote == remote) else {
            if self.count < SESSIONS {
                let class = match (syn && !ack, rst) {
                    (_, true) => Class::Closed,
                    (true, _) => Class::Opening,
                    _ => Class::Established,
                };
                let mut carried = [false; 2];
                carried[way] = true;
                self.sessions[self.count] = Session { remote, class, carried, finished: [way == 0 && fin, way == 1 && fin], last: now };
                self.count += 1;
            }
            return;
        };
        session.last = now;
        session.carried[way] |= !syn && !rst;
        session.finished[way] |= fin;
        if rst || session.finished == [true; 2] {
            session.class = Class::Closed;
        } else if session.class == Class::Closed && syn {
            session.class = Class::Opening;
        } else if session.class == Class::Opening && session.carried == [true; 2] {
            session.class = Class::Established;
        }
    }
}

// ---- when entries are looked at again

const LEVELS: usize = 5;

#[derive(Clone, Copy)]
struct Links {
    next: u32,
    previous: u32,
    due: u64,
    bucket: u32,
}

/// Buckets of 64 moments, of 64 such buckets, and so on: an entry lies at the level of the highest digit in which its moment
/// and the present one differ.
struct Wheel {
    now: u64,
    heads: [u32; LEVELS * 64],
    marks: [u64; LEVELS],
    links: Vec<Links>,
}

impl Wheel {
    fn new() -> Wheel {
        Wheel { now: 0, heads: [NO_SLOT; LEVELS * 64], marks: [0; LEVELS], links: Vec::with_capacity(120_000) }
    }

    fn clear(&mut self) {
        self.heads = [NO_SLOT; LEVELS * 64];
        self.marks = [0; LEVELS];
        self.links.clear();
    }

    fn put(&mut self, slot: u32, due: u64) {
        let differs = due ^ self.now;
        let level = if differs == 0 { 0 } else { ((63 - differs.leading_zeros() as usize) / 6).min(LEVELS - 1) };
        let digit = (due >> (6 * level)) as usize & 63;
        let bucket = level * 64 + digit;
        let head = self.heads[bucket];
        if head != NO_SLOT {
            self.links[head as usize].previous = slot;
        }
        self.links[slot as usize] = Links { next: head, previous: NO_SLOT, due, bucket: bucket as u32 };
        self.heads[bucket] = slot;
        self.marks[level] |= 1 << digit;
    }

    fn unlink(&mut self, slot: u32) {
        let Links { next, previous, bucket, .. } = self.links[slot as usize];
        if next != NO_SLOT {
            self.links[next as usize].previous = previous;
        }
        if previous != NO_SLOT {
            self.links[previous as usize].next = next;
            return;
        }
        self.heads[bucket as usize] = next;
        if next == NO_SLOT {
            self.marks[bucket as usize / 64] &= !(1 << (bucket % 64));
        }
    }

    fn set(&mut self, slot: u32, due: u64) {
        self.unlink(slot);
        self.put(slot, due);
    }

    fn add(&mut self, slot: u32, due: u64) {
        if self.links.len() <= slot as usize {
            self.links.resize(slot as usize + 1, Links { next: NO_SLOT, previous: NO_SLOT, due: 0, bucket: 0 });
        }
        self.put(slot, due);
    }

    /// The first bucket behind the present moment that has something, and its first moment.
    fn next(&self) -> Option<(usize, u64)> {
        for level in 0..LEVELS {
            let digit = self.now >> (6 * level) & 63;
            let ahead = if digit == 63 { 0 } else { self.marks[level] & (u64::MAX << (digit + 1)) };
            if ahead != 0 {
                let first = u64::from(ahead.trailing_zeros());
                let above = self.now >> (6 * (level + 1)) << (6 * (level + 1));
                return Some((level * 64 + first as usize, above | first << (6 * level)));
            }
        }
        None
    }

    /// The clock goes on; hands over what is due by then.
    fn turn(&mut self, now: u64, mut due: impl FnMut(u32)) {
        while let Some((bucket, at)) = self.next() {
            if at > now {
                break;
            }
            self.now = at;
            let mut slot = self.heads[bucket];
            self.heads[bucket] = NO_SLOT;
            self.marks[bucket / 64] &= !(1 << (bucket % 64));
            while slot != NO_SLOT {
                let Links { next, due: moment, .. } = self.links[slot as usize];
                if moment <= at {
                    due(slot);
                } else {
                    self.put(slot, moment);
                }
                slot = next;
            }
        }
        self.now = now;
    }
}

// ---- ports

/// Free and owned ports as bits, and for each parity which words have any that is both.
struct Ports {
    owned: Box<[u64; 1024]>,
    free: [Box<[u64; 1024]>; 3],
    like: [[[u64; 16]; 2]; 3],
}

const EVEN: u64 = 0x5555_5555_5555_5555;

impl Ports {
    fn new() -> Ports {
        let words = |word| Box::new([word; 1024]);
        Ports { owned: words(0), free: [words(u64::MAX), words(u64::MAX), words(u64::MAX)], like: [[[0; 16]; 2]; 3] }
    }

    fn mark(&mut self, protocol: usize, word: usize) {
        let open = self.owned[word] & self.free[protocol][word];
        for (parity, mask) in [EVEN, !EVEN].into_iter().enumerate() {
            let bit = 1 << (word % 64);
            if open & mask != 0 {
                self.like[protocol][parity][word / 64] |= bit;
            } else {
                self.like[protocol][parity][word / 64] &= !bit;
            }
        }
    }

    fn take(&mut self, key: Key) {
        let word = usize::from(key.port) / 64;
        self.free[key.protocol as usize][word] &= !(1 << (key.port % 64));
        self.mark(key.protocol as usize, word);
    }

    /// All ports of a range are owned, or none of them.
    fn set_owned(&mut self, first: u16, last: u16, is_owned: bool) {
        for word in usize::from(first) / 64..=usize::from(last) / 64 {
            let low = usize::from(first).saturating_sub(word * 64).min(63);
            let high = (usize::from(last) - word * 64).min(63);
            let mask = (u64::MAX << low) & (u64::MAX >> (63 - high));
            if is_owned {
                self.owned[word] |= mask;
            } else {
                self.owned[word] &= !mask;
            }
            (0..3).for_each(|protocol| self.mark(protocol, word));
        }
    }

    fn owns(&self, port: u16) -> bool {
        self.owned[usize::from(port) / 64] >> (port % 64) & 1 == 1
    }

    fn clear(&mut self) {
        self.owned.fill(0);
        self.free.iter_mut().for_each(|words| words.fill(u64::MAX));
        self.like = [[[0; 16]; 2]; 3];
    }

    fn lowest(&self, protocol: Protocol, parity: usize) -> Option<u16> {
        let summary = &self.like[protocol as usize][parity];
        let at = summary.iter().position(|bits| *bits != 0)?;
        let word = at * 64 + summary[at].trailing_zeros() as usize;
        let open = self.owned[word] & self.free[protocol as usize][word] & [EVEN, !EVEN][parity];
        Some((word * 64 + open.trailing_zeros() as usize) as u16)
    }

    fn free_like(&self, protocol: Protocol, port: u16) -> Option<u16> {
        let parity = usize::from(port % 2);
        self.lowest(protocol, parity).or_else(|| self.lowest(protocol, 1 - parity))
    }

    fn spare(&self, word: usize) -> u64 {
        self.owned[word] & self.free[0][word] & self.free[1][word] & self.free[2][word]
    }

    /// The greatest spare ports: at most 16, and at most half of them.
    fn granted(&self) -> ([u16; 16], usize) {
        let count: u32 = (0..1024).map(|word| self.spare(word).count_ones()).sum();
        let most = (count as usize / 2).min(16);
        let (mut ports, mut found) = ([0; 16], 0);
        for word in (0..1024).rev() {
            let mut bits = self.spare(word);
            while bits != 0 && found < most {
                let high = 63 - bits.leading_zeros() as usize;
                ports[found] = (word * 64 + high) as u16;
                found += 1;
                bits &= !(1 << high);
            }
            if found == most {
                break;
            }
        }
        (ports, found)
    }

    /// The first run of owned ports from one on.
    fn run_from(&self, from: u32) -> Option<(u16, u16)> {
        let first = self.first(from, false)?;
        let behind = self.first(first + 1, true).unwrap_or(65536);
        Some((first as u16, (behind - 1) as u16))
    }

    /// The first port from one on that is owned, or not.
    fn first(&self, from: u32, flipped: bool) -> Option<u32> {
        let mut word = from as usize / 64;
        if word >= 1024 {
            return None;
        }
        let turned = |word: usize| if flipped { !self.owned[word] } else { self.owned[word] };
        let mut bits = turned(word) & (u64::MAX << (from % 64));
        while bits == 0 {
            word += 1;
            if word == 1024 {
                return None;
            }
            bits = turned(word);
        }
        Some(word as u32 * 64 + bits.trailing_zeros())
    }
}

// ---- the table

struct Table {
    ports: Ports,
    entries: Vec<Entry>,
    by_endpoint: HashMap<Endpoint, u32, Keys>,
    /// The entry of each protocol and port.
    by_key: Vec<u32>,
    wheel: Wheel,
    /// Both ranges.
    ranges: [(u16, u16); 2],
}

impl Table {
    fn new(ranges: [(u16, u16); 2]) -> Table {
        let by_endpoint = HashMap::with_capacity_and_hasher(120_000, Keys::fixed());
        let entries = Vec::with_capacity(120_000);
        Table { ports: Ports::new(), entries, by_endpoint, by_key: vec![NO_SLOT; 3 << 16], wheel: Wheel::new(), ranges }
    }

    fn add(&mut self, pair: Pair, standing: Standing, now: u64) {
        let entry = Entry::new(pair, standing, now);
        let slot = self.entries.len() as u32;
        self.wheel.add(slot, entry.due);
        self.entries.push(entry);
        self.by_endpoint.insert(pair.endpoint, slot);
        self.by_key[pair.key.cell()] = slot;
        self.ports.take(pair.key);
    }

    fn at(&self, key: Key) -> Option<&Entry> {
        let slot = self.by_key[key.cell()];
        if slot == NO_SLOT { None } else { self.entries.get(slot as usize) }
    }

    #[inline(always)]
    fn slot_of(&self, endpoint: Endpoint) -> Option<u32> {
        self.by_endpoint.get(&endpoint).copied()
    }

    /// A packet of this pair goes on. A pair that is looked at before it is idle stays where it is on the wheel.
    #[inline(always)]
    fn carry(&mut self, slot: u32, way: usize, remote: Remote, flags: u8, now: u64) {
        let entry = &mut self.entries[slot as usize];
        entry.follow(way, remote, flags, now);
        let end = entry.end();
        if entry.due > end {
            entry.due = end;
            self.wheel.set(slot, end);
        }
    }

    fn clear(&mut self) {
        self.ports.clear();
        self.entries.clear();
        self.by_endpoint.clear();
        self.by_key.fill(NO_SLOT);
        self.wheel.clear();
    }

    fn is_in_ranges(&self, port: u16) -> bool {
        self.ranges.iter().any(|(first, last)| (*first..=*last).contains(&port))
    }
}

// ---- the link

#[derive(Clone, Copy)]
enum Record {
    Install(Pair),
    Accept(Key),
    Refuse(Key),
    Begin,
    Put(Pair),
    Done,
    Want,
    Grant([u16; 16], usize),
    Owner(u16, u16),
}

struct Reader<'a>(&'a [u8]);

impl Reader<'_> {
    fn take<const N: usize>(&mut self) -> Option<[u8; N]> {
        let (head, rest) = self.0.split_first_chunk::<N>()?;
        self.0 = rest;
        Some(*head)
    }

    fn port(&mut self) -> Option<u16> {
        self.take().map(u16::from_be_bytes).filter(|port| *port != 0)
    }

    fn key(&mut self) -> Option<Key> {
        let [number] = self.take()?;
        Some(Key { protocol: Protocol::numbered(number)?, port: self.port()? })
    }

    fn pair(&mut self) -> Option<Pair> {
        let key = self.key()?;
        let address = u32::from_be_bytes(self.take()?);
        Some(Pair { key, endpoint: Endpoint { protocol: key.protocol, address, port: self.port()? } })
    }

    fn record(&mut self) -> Option<Record> {
        let [tag] = self.take()?;
        Some(match tag {
            1 => Record::Install(self.pair()?),
            2 => Record::Accept(self.key()?),
            3 => Record::Refuse(self.key()?),
            7 => Record::Begin,
            8 => Record::Put(self.pair()?),
            9 => Record::Done,
            10 => Record::Want,
            11 => {
                let [count] = self.take()?;
                let (mut ports, count) = ([0; 16], usize::from(count));
                for place in ports.get_mut(..count)? {
                    *place = self.port()?;
                }
                Record::Grant(ports, count)
            }
            12 => {
                let (first, last) = (self.port()?, self.port()?);
                if first > last {
                    return None;
                }
                Record::Owner(first, last)
            }
            _ => return None,
        })
    }
}

fn put_key(out: &mut Vec<u8>, key: Key) {
    out.push(key.protocol.number());
    out.extend_from_slice(&key.port.to_be_bytes());
}

fn put_pair(out: &mut Vec<u8>, pair: Pair) {
    put_key(out, pair.key);
    out.extend_from_slice(&pair.endpoint.address.to_be_bytes());
    out.extend_from_slice(&pair.endpoint.port.to_be_bytes());
}

impl Record {
    fn write(&self, out: &mut Vec<u8>) {
        match self {
            Record::Install(pair) => {
                out.push(1);
                put_pair(out, *pair);
            }
            Record::Accept(key) => {
                out.push(2);
                put_key(out, *key);
            }
            Record::Refuse(key) => {
                out.push(3);
                put_key(out, *key);
            }
            Record::Begin => out.push(7),
            Record::Put(pair) => {
                out.push(8);
                put_pair(out, *pair);
            }
            Record::Done => out.push(9),
            Record::Want => out.push(10),
            Record::Grant(ports, count) => {
                out.extend_from_slice(&[11, *count as u8]);
                ports[..*count].iter().for_each(|port| out.extend_from_slice(&port.to_be_bytes()));
            }
            Record::Owner(first, last) => {
                out.push(12);
                out.extend_from_slice(&first.to_be_bytes());
                out.extend_from_slice(&last.to_be_bytes());
            }
        }
    }
}

/// How far a batch is handed in.
#[derive(Clone, Copy, PartialEq, Eq)]
enum Cursor {
    Begin,
    Ports(u32),
    Pairs(usize),
    Done,
    Over,
}

struct Link {
    id: u8,
    boot: u64,
    /// The peer's boot that was heard last, or 0.
    known: u64,
    taken: u64,
    acknowledged: u64,
    waiting: VecDeque<Record>,
    heard: Option<u64>,
    ticked: Option<u64>,
    due: bool,
    /// Whether a part of a batch is still to be handed in.
    promised: bool,
}

impl Link {
    fn new(id: u8) -> Link {
        Link { id, boot: 1, known: 0, taken: 0, acknowledged: 0, waiting: VecDeque::with_capacity(PLACES), heard: None, ticked: None, due: false, promised: false }
    }

    fn is_full(&self) -> bool {
        PLACES - self.waiting.len() <= RECORDS
    }

    fn push(&mut self, record: Record) {
        self.waiting.push_back(record);
        self.due = true;
    }

    fn write(&mut self, out: &mut Out) {
        let (start, count) = (out.datagrams.len(), self.waiting.len().min(RECORDS));
        out.datagrams.extend_from_slice(&[b'N', b'P', 4, self.id]);
        out.datagrams.extend_from_slice(&self.boot.to_be_bytes());
        out.datagrams.extend_from_slice(&self.known.to_be_bytes());
        out.datagrams.extend_from_slice(&VALUES);
        out.datagrams.push(1);
        out.datagrams.extend_from_slice(&self.taken.to_be_bytes());
        out.datagrams.extend_from_slice(&(self.acknowledged + 1).to_be_bytes());
        out.datagrams.push(count as u8);
        self.waiting.iter().take(count).for_each(|record| record.write(&mut out.datagrams));
        out.lengths.push(out.datagrams.len() - start);
        self.due = false;
    }

    /// The new records of a datagram, and whether a greater boot was heard.
    fn take(&mut self, bytes: &[u8], now: u64, records: &mut [Record; RECORDS]) -> Option<(bool, usize)> {
        let word = |at: usize| u64::from_be_bytes(bytes[at..at + 8].try_into().expect("eight bytes"));
        if bytes.len() < DATAGRAM_HEADER || bytes[..3] != [b'N', b'P', 4] || bytes[3] > 1 || bytes[38] > 1 || bytes[55] as usize > RECORDS {
            return None;
        }
        let (boot, receiver, delivered, first) = (word(4), word(12), word(39), word(47));
        if bytes[3] == self.id || bytes[20..38] != VALUES || boot == 0 || boot < self.known || first == 0 {
            return None;
        }
        let mut reader = Reader(&bytes[DATAGRAM_HEADER..]);
        let count = usize::from(bytes[55]);
        for place in &mut records[..count] {
            *place = reader.record()?;
        }
        if !reader.0.is_empty() {
            return None;
        }
        if boot > self.known {
            self.known = boot;
            (self.taken, self.acknowledged) = (0, 0);
            self.waiting.clear();
            self.heard = (receiver == self.boot).then_some(now);
            let begins = receiver == self.boot && delivered == 0 && first == 1;
            let count = if begins { count } else { 0 };
            self.taken = count as u64;
            self.due |= count > 0;
            return Some((true, count));
        }
        if receiver != self.boot || delivered > self.acknowledged + self.waiting.len() as u64 || count > 0 && self.taken + 1 < first {
            return None;
        }
        let news = delivered.saturating_sub(self.acknowledged) as usize;
        let progress = news > 0 && (news < self.waiting.len() || self.promised);
        self.waiting.drain(..news);
        self.acknowledged = self.acknowledged.max(delivered);
        let old = ((self.taken + 1).saturating_sub(first) as usize).min(count);
        records.copy_within(old..count, 0);
        self.taken += (count - old) as u64;
        self.heard = Some(now);
        self.due |= count > old || progress;
        Some((false, count - old))
    }
}

// ---- what is told

/// Who sends to whom.
#[derive(Clone, Copy)]
struct Flow {
    protocol: Protocol,
    source: u32,
    source_port: u16,
    destination: u32,
    destination_port: u16,
    flags: u8,
}

#[derive(Clone, Copy)]
enum Note {
    Used,
    Retaken,
    Synced,
}

#[derive(Default)]
struct Out {
    frames: Vec<u8>,
    sizes: Vec<(bool, usize)>,
    datagrams: Vec<u8>,
    lengths: Vec<usize>,
    notes: Vec<(u64, Note, Option<Pair>)>,
}

impl Out {
    /// Takes the memory that a step may want, so that nothing is refused later.
    fn ready(&mut self, frames: usize, notes: usize) {
        self.frames.reserve(frames * LONGEST);
        self.sizes.reserve(frames);
        self.datagrams.reserve(LONGEST_DATAGRAM);
        self.lengths.reserve(1);
        self.notes.reserve(notes);
    }

    fn clear(&mut self) {
        self.frames.clear();
        self.sizes.clear();
        self.datagrams.clear();
        self.lengths.clear();
        self.notes.clear();
    }
}

// ---- the networks

/// A neighbour that was learnt or renewed at a moment.
struct Neighbour {
    address: u32,
    mac: Mac,
    at: u64,
    asked: u64,
}

struct Interface {
    own: Mac,
    own_address: u32,
    routed: Mac,
    router: u8,
    address: u32,
    network: u32,
    mask: u32,
    mtu: usize,
    priority: u8,
    /// Whether the virtual router is Active here, and when it advertises itself next.
    active: bool,
    next: u64,
    /// Those of the settings.
    fixed: Vec<(u32, Mac)>,
    /// Those that were learnt, by rising address.
    learnt: Vec<Neighbour>,
}

impl Interface {
    fn has(&self, address: u32) -> bool {
        address & self.mask == self.network
    }

    fn mac_of(&self, address: u32, now: u64) -> Option<Mac> {
        if let Some((_, mac)) = self.fixed.iter().find(|(known, _)| *known == address) {
            return Some(*mac);
        }
        let at = self.learnt.binary_search_by_key(&address, |neighbour| neighbour.address).ok()?;
        let known = &self.learnt[at];
        (now.saturating_sub(known.at) < VALID_FOR).then_some(known.mac)
    }

    /// Whether a neighbour that a packet was just sent to is to be asked for.
    fn asks(&mut self, address: u32, now: u64) -> bool {
        if self.fixed.iter().any(|(known, _)| *known == address) {
            return false;
        }
        let Ok(at) = self.learnt.binary_search_by_key(&address, |neighbour| neighbour.address) else {
            return false;
        };
        let known = &mut self.learnt[at];
        let asks = now.saturating_sub(known.at) >= RENEWED_AFTER && now.saturating_sub(known.asked) >= ASKED_AFTER;
        if asks {
            known.asked = now;
        }
        asks
    }

    /// Whether a frame to this address is one for the gateway.
    fn is_own(&self, mac: &[u8]) -> bool {
        mac == self.own || mac == BROADCAST || mac == VRRP || self.active && mac == self.routed
    }

    /// Advertises the virtual router, where that is due.
    fn tick(&mut self, now: u64, is_inside: bool, out: &mut Out) {
        if now < self.next {
            return;
        }
        self.next = now + ADVERT_INTERVAL;
        self.active = true;
        let mut packet = [0; 32];
        packet[..12].copy_from_slice(&[0x45, 0, 0, 32, 0, 0, 0, 0, 255, 112, 0, 0]);
        packet[12..16].copy_from_slice(&self.own_address.to_be_bytes());
        packet[16..20].copy_from_slice(&VRRP_GROUP.to_be_bytes());
        let header_sum = !sum(&packet[..20]);
        packet[10..12].copy_from_slice(&header_sum.to_be_bytes());
        packet[20..26].copy_from_slice(&[0x31, self.router, self.priority, 1, 0, ADVERT_INTERVAL as u8]);
        packet[28..32].copy_from_slice(&self.address.to_be_bytes());
        let message_sum = !sum(&packet[20..]);
        packet[26..28].copy_from_slice(&message_sum.to_be_bytes());
        out.frames.extend_from_slice(&VRRP);
        out.frames.extend_from_slice(&self.routed);
        out.frames.extend_from_slice(&[8, 0]);
        out.frames.extend_from_slice(&packet);
        out.sizes.push((is_inside, HEADER + 32));
    }
}

fn word(bytes: &[u8], at: usize) -> u16 {
    u16::from_be_bytes([bytes[at], bytes[at + 1]])
}

fn address(bytes: &[u8], at: usize) -> u32 {
    u32::from_be_bytes([bytes[at], bytes[at + 1], bytes[at + 2], bytes[at + 3]])
}

fn folded(mut total: u32) -> u16 {
    while total > 0xffff {
        total = (total & 0xffff) + (total >> 16);
    }
    total as u16
}

fn sum(bytes: &[u8]) -> u16 {
    folded(bytes.chunks_exact(2).map(|pair| u32::from(word(pair, 0))).sum())
}

/// The checksum after words changed: `change` is the sum of the old ones' complements and the new ones (RFC 1624).
fn update(checksum: u16, change: u32) -> u16 {
    !folded(u32::from(!checksum) + change)
}

fn change_of(old: u16, new: u16) -> u32 {
    u32::from(!old) + u32::from(new)
}

fn address_change(old: u32, new: u32) -> u32 {
    change_of((old >> 16) as u16, (new >> 16) as u16) + change_of(old as u16, new as u16)
}

/// Whether no host has an address.
fn is_martian(address: u32) -> bool {
    let first = address >> 24;
    first == 0 || first == 127 || first >= 224
}

/// The packet of a frame and its payload's place, where it is a right IPv4 packet that isn't a fragment.
#[inline(always)]
fn packet_of(frame: &[u8]) -> Option<(&[u8], usize)> {
    let bytes = &frame[HEADER..];
    if bytes.len() < 20 || bytes[0] >> 4 != 4 {
        return None;
    }
    let (head, total) = (usize::from(bytes[0] & 15) * 4, usize::from(word(bytes, 2)));
    if head < 20 || total < head || total > bytes.len() {
        return None;
    }
    if sum(&bytes[..head]) != 0xffff || word(bytes, 6) & 0x3fff != 0 {
        return None;
    }
    Some((&bytes[..total], head))
}

/// The ports of a payload, and the flags of a segment. A query has its identifier in the place of the inside port.
#[inline(always)]
fn ports_of(side: Side, protocol: Protocol, payload: &[u8]) -> Option<(u16, u16, u8)> {
    match protocol {
        Protocol::Icmp => {
            let kind = if side == Side::Inside { 8 } else { 0 };
            if payload.len() < 8 || payload[0] != kind || payload[1] != 0 {
                return None;
            }
            Some((word(payload, 4), word(payload, 4), 0))
        }
        Protocol::Tcp => {
            if payload.len() < 20 {
                return None;
            }
            let offset = usize::from(payload[12] >> 4) * 4;
            if offset < 20 || offset > payload.len() {
                return None;
            }
            Some((word(payload, 0), word(payload, 2), payload[13]))
        }
        Protocol::Udp => {
            if payload.len() < 8 || word(payload, 4) < 8 || usize::from(word(payload, 4)) > payload.len() {
                return None;
            }
            Some((word(payload, 0), word(payload, 2), 0))
        }
    }
}

/// Who sends to whom, where the transport header is right.
#[inline(always)]
fn flow_of(side: Side, packet: &[u8], head: usize) -> Option<Flow> {
    let protocol = Protocol::numbered(packet[9])?;
    let (source_port, destination_port, flags) = ports_of(side, protocol, &packet[head..])?;
    if source_port == 0 || destination_port == 0 || packet[8] < 2 {
        return None;
    }
    let (source, destination) = (address(packet, 12), address(packet, 16));
    Some(Flow { protocol, source, source_port, destination, destination_port, flags })
}

// ---- a box

#[derive(Clone, Copy, PartialEq, Eq, Debug)]
enum Outcome {
    Sent,
    Waiting,
    Done,
    Dropped,
}

/// A packet that waits for its endpoint's pair.
struct Held {
    endpoint: Endpoint,
    bytes: Vec<u8>,
}

struct Gateway {
    id: u8,
    moment: u64,
    up: bool,
    lone: bool,
    wants: bool,
    /// Whether the box answers Echos, and how many pairs a host may have.
    echo: bool,
    limit: Option<u16>,
    router: u32,
    inside: Interface,
    outside: Interface,
    table: Table,
    link: Link,
    cursor: Cursor,
    held: Vec<Held>,
    /// Copies that nothing waits in.
    copies: Vec<Vec<u8>>,
}

const RANGES: [(u16, u16); 2] = [(20_000, 39_999), (40_000, 59_999)];
/// But for one port all are the first box's.
const UNEVEN: [(u16, u16); 2] = [(20_000, 59_998), (59_999, 59_999)];

fn interface(id: u8, side: Side) -> Interface {
    let (base, router, own) = match side {
        Side::Inside => ([192, 168, 1, 0], 11, 1),
        Side::Outside => ([192, 0, 2, 0], 10, 2),
    };
    let host = |last: u8| u32::from_be_bytes(base) + u32::from(last);
    let fixed = match side {
        Side::Inside => vec![(host(10), [2, 0, 0, 0, 0, 10]), (host(11), [2, 0, 0, 0, 0, 11])],
        Side::Outside => vec![(host(254), [2, 0, 0, 0, 0, 254])],
    };
    let next = if id == 0 { ACTIVE } else { ACTIVE + 5 };
    Interface {
        own: [2, 0, 0, 0, own, id],
        own_address: host(2 + id),
        routed: [0, 0, 0x5e, 0, 1, router],
        router,
        address: host(1),
        network: host(0),
        mask: 0xffff_ff00,
        mtu: 1500,
        priority: 100 - 10 * id,
        active: false,
        next,
        fixed,
        learnt: Vec::new(),
    }
}

impl Gateway {
    fn new(id: u8, ranges: [(u16, u16); 2]) -> Gateway {
        let (inside, outside) = (interface(id, Side::Inside), interface(id, Side::Outside));
        let mut table = Table::new(ranges);
        if id == 0 {
            table.ports.set_owned(ranges[0].0, ranges[0].1, true);
        }
        Gateway {
            id,
            moment: 0,
            up: id == 0,
            lone: id == 0,
            wants: false,
            echo: false,
            limit: None,
            router: outside.network + 254,
            inside,
            outside,
            table,
            link: Link::new(id),
            cursor: Cursor::Over,
            held: Vec::with_capacity(HELD),
            copies: (0..HELD).map(|_| Vec::with_capacity(LONGEST)).collect(),
        }
    }

    /// A frame came in.
    fn step(&mut self, side: Side, frame: &[u8], out: &mut Out) -> Outcome {
        out.clear();
        let outcome = self.take(side, frame, out).unwrap_or(Outcome::Dropped);
        self.end(out);
        outcome
    }

    /// The clock goes on.
    fn tick(&mut self, now: u64, out: &mut Out) {
        out.clear();
        out.ready(8, self.table.entries.len() + 1);
        self.moment = self.moment.max(now);
        if self.up {
            self.inside.tick(self.moment, true, out);
            self.outside.tick(self.moment, false, out);
        }
        let mut idle = 0;
        self.table.wheel.turn(self.moment, |_| idle += 1);
        self.feed();
        if self.link.due || self.link.ticked.is_none_or(|at| self.moment - at >= LINK_INTERVAL) {
            self.link.write(out);
            self.link.ticked = Some(self.moment);
        }
    }

    /// A datagram of the other box came.
    fn hear(&mut self, bytes: &[u8], out: &mut Out) -> Outcome {
        out.clear();
        out.ready(3 * RECORDS, 4 * RECORDS);
        let mut records = [Record::Begin; RECORDS];
        let Some((restarted, count)) = self.link.take(bytes, self.moment, &mut records) else {
            return Outcome::Dropped;
        };
        if restarted && self.up {
            (self.lone, self.wants, self.cursor) = (false, false, Cursor::Begin);
            (self.link.promised, self.link.due) = (true, true);
        }
        for record in &records[..count] {
            self.record(*record, out);
        }
        self.end(out);
        Outcome::Done
    }

    /// Sends the datagram that is due.
    fn end(&mut self, out: &mut Out) {
        if self.cursor != Cursor::Over {
            self.feed();
        }
        if self.link.due {
            self.link.write(out);
        }
    }

    /// Hands in what the next datagram takes of a batch.
    #[cold]
    fn feed(&mut self) {
        while self.cursor != Cursor::Over && self.link.waiting.len() < RECORDS {
            let record = match self.cursor {
                Cursor::Begin => {
                    self.cursor = Cursor::Ports(0);
                    Record::Begin
                }
                Cursor::Ports(from) => match self.table.ports.run_from(from) {
                    Some((first, last)) => {
                        self.cursor = Cursor::Ports(u32::from(last) + 1);
                        Record::Owner(first, last)
                    }
                    None => {
                        self.cursor = Cursor::Pairs(0);
                        continue;
                    }
                },
                Cursor::Pairs(from) => match self.table.by_key[from..].iter().position(|slot| *slot != NO_SLOT) {
                    Some(more) => {
                        self.cursor = Cursor::Pairs(from + more + 1);
                        Record::Put(self.table.entries[self.table.by_key[from + more] as usize].pair)
                    }
                    None => {
                        self.cursor = Cursor::Done;
                        continue;
                    }
                },
                Cursor::Done | Cursor::Over => {
                    (self.cursor, self.link.promised) = (Cursor::Over, false);
                    Record::Done
                }
            };
            self.link.waiting.push_back(record);
        }
    }

    fn record(&mut self, record: Record, out: &mut Out) {
        if !self.up {
            return self.load(record, out);
        }
        if self.cursor != Cursor::Over {
            return;
        }
        match record {
            Record::Install(pair) => self.install(pair, out),
            Record::Accept(key) => self.accepted(key, out),
            Record::Want => {
                let (ports, count) = self.table.ports.granted();
                ports[..count].iter().for_each(|port| self.table.ports.set_owned(*port, *port, false));
                self.link.push(Record::Grant(ports, count));
            }
            Record::Grant(ports, count) if self.wants => {
                self.wants = false;
                ports[..count].iter().for_each(|port| self.table.ports.set_owned(*port, *port, true));
            }
            _ => {}
        }
    }

    fn install(&mut self, pair: Pair, out: &mut Out) {
        let is_theirs = self.table.is_in_ranges(pair.key.port) && !self.table.ports.owns(pair.key.port);
        if is_theirs && self.table.at(pair.key).is_none() && self.table.slot_of(pair.endpoint).is_none() {
            self.table.add(pair, Standing::Held, self.moment);
            self.link.push(Record::Accept(pair.key));
            out.notes.push((self.moment, Note::Retaken, Some(pair)));
        } else {
            self.link.push(Record::Refuse(pair.key));
        }
    }

    /// A pair is accepted: it translates, and its packet goes.
    fn accepted(&mut self, key: Key, out: &mut Out) {
        let slot = self.table.by_key[key.cell()];
        if slot == NO_SLOT {
            return;
        }
        let entry = &mut self.table.entries[slot as usize];
        if entry.standing != Standing::Pending {
            return;
        }
        entry.standing = Standing::Live;
        let pair = entry.pair;
        out.notes.push((self.moment, Note::Retaken, Some(pair)));
        if let Some(at) = self.held.iter().position(|held| held.endpoint == pair.endpoint) {
            let held = self.held.remove(at);
            self.take(Side::Inside, &held.bytes, out);
            self.copies.push(held.bytes);
        }
    }

    /// A record at a box whose table isn't loaded.
    fn load(&mut self, record: Record, out: &mut Out) {
        match record {
            Record::Begin => {
                self.table.clear();
                let ranges = self.table.ranges;
                ranges.iter().for_each(|(first, last)| self.table.ports.set_owned(*first, *last, true));
            }
            Record::Owner(first, last) => self.table.ports.set_owned(first, last, false),
            Record::Put(pair) => {
                let is_new = self.table.at(pair.key).is_none() && self.table.slot_of(pair.endpoint).is_none();
                if is_new && self.table.is_in_ranges(pair.key.port) {
                    let standing = if self.table.ports.owns(pair.key.port) { Standing::Live } else { Standing::Held };
                    self.table.add(pair, standing, self.moment);
                }
            }
            Record::Done => {
                self.up = true;
                out.notes.push((self.moment, Note::Synced, None));
            }
            _ => {}
        }
    }

    // ---- packets

    /// Whether a packet is an Echo that the box answers.
    fn is_asked(&self, from: &Interface, frame: &[u8], packet: &[u8], head: usize) -> bool {
        let to = address(packet, 16);
        let is_to_box = frame[..6] == from.own && to == from.own_address
            || from.active && frame[..6] == from.routed && (to == from.address || to == self.outside.address);
        self.echo && is_to_box && packet[9] == 1 && packet.get(head) == Some(&8)
    }

    fn take(&mut self, side: Side, frame: &[u8], out: &mut Out) -> Option<Outcome> {
        let from = if side == Side::Inside { &self.inside } else { &self.outside };
        if frame.len() > LONGEST || frame.len() < HEADER || !self.up || !from.is_own(&frame[..6]) || word(frame, 12) != 0x0800 {
            return None;
        }
        let (packet, head) = packet_of(frame)?;
        if self.is_asked(from, frame, packet, head) {
            return None;
        }
        if packet[9] == 112 && address(packet, 16) == VRRP_GROUP || frame[..6] != from.routed {
            return None;
        }
        let flow = flow_of(side, packet, head)?;
        out.ready(3, 3);
        match side {
            Side::Inside => self.outward(frame, packet, head, flow, out),
            Side::Outside => self.inward(packet, head, flow, out),
        }
    }

    #[inline(always)]
    fn outward(&mut self, frame: &[u8], packet: &[u8], head: usize, flow: Flow, out: &mut Out) -> Option<Outcome> {
        let inside = &self.inside;
        let is_strange = !inside.has(flow.source) || flow.source == inside.address || is_martian(flow.source);
        if is_strange || flow.destination == self.outside.address || inside.has(flow.destination) || is_martian(flow.destination) {
            return None;
        }
        let endpoint = Endpoint { protocol: flow.protocol, address: flow.source, port: flow.source_port };
        let slot = match self.table.slot_of(endpoint) {
            Some(slot) => slot,
            None => return self.open(frame, packet.len(), endpoint, head, flow, out),
        };
        if !self.table.entries[slot as usize].translates() {
            return None;
        }
        self.send_outward(packet, head, flow, slot, out)
    }

    #[inline(always)]
    fn send_outward(&mut self, packet: &[u8], head: usize, flow: Flow, slot: u32, out: &mut Out) -> Option<Outcome> {
        let hop = if self.outside.has(flow.destination) { flow.destination } else { self.router };
        let next = self.outside.mac_of(hop, self.moment)?;
        if packet.len() > self.outside.mtu {
            return None;
        }
        let pair = self.table.entries[slot as usize].pair;
        let change = Change { ip_at: 12, port_at: 0, address: self.outside.address, port: pair.key.port };
        send(out, Side::Outside, next, self.outside.own, packet, head, flow.protocol, change);
        let remote = Remote { address: flow.destination, port: flow.destination_port };
        self.table.carry(slot, 0, remote, flow.flags, self.moment);
        out.notes.push((self.moment, Note::Used, Some(pair)));
        if self.outside.asks(hop, self.moment) {
            request(out, Side::Outside, &self.outside, hop);
        }
        Some(Outcome::Sent)
    }

    /// A packet of an endpoint without a pair: one is made or proposed.
    #[cold]
    fn open(&mut self, frame: &[u8], length: usize, endpoint: Endpoint, head: usize, flow: Flow, out: &mut Out) -> Option<Outcome> {
        if self.limit.is_some_and(|most| self.pairs_of(endpoint.address) >= usize::from(most)) {
            return None;
        }
        let is_full = self.link.is_full();
        let Some(port) = self.table.ports.free_like(endpoint.protocol, endpoint.port) else {
            if !self.lone && !self.wants && !is_full {
                self.wants = true;
                self.link.push(Record::Want);
            }
            return None;
        };
        let pair = Pair { key: Key { protocol: endpoint.protocol, port }, endpoint };
        if self.lone {
            self.table.add(pair, Standing::Live, self.moment);
            out.notes.push((self.moment, Note::Retaken, Some(pair)));
            let slot = self.table.slot_of(endpoint)?;
            return self.send_outward(&frame[HEADER..HEADER + length], head, flow, slot, out);
        }
        if is_full || self.held.len() == HELD || length > self.outside.mtu {
            return None;
        }
        let mut bytes = self.copies.pop()?;
        bytes.clear();
        bytes.extend_from_slice(frame);
        self.held.push(Held { endpoint, bytes });
        self.table.add(pair, Standing::Pending, self.moment);
        self.link.push(Record::Install(pair));
        Some(Outcome::Waiting)
    }

    fn pairs_of(&self, address: u32) -> usize {
        self.table.entries.iter().filter(|entry| entry.pair.endpoint.address == address).count()
    }

    #[inline(always)]
    fn inward(&mut self, packet: &[u8], head: usize, flow: Flow, out: &mut Out) -> Option<Outcome> {
        let outside = self.outside.address;
        if flow.destination != outside || self.inside.has(flow.source) || flow.source == outside || is_martian(flow.source) {
            return None;
        }
        let key = Key { protocol: flow.protocol, port: flow.destination_port };
        let slot = self.table.by_key[key.cell()];
        if slot == NO_SLOT {
            return None;
        }
        let entry = &self.table.entries[slot as usize];
        if !entry.translates() {
            return None;
        }
        let pair = entry.pair;
        let next = self.inside.mac_of(pair.endpoint.address, self.moment)?;
        if packet.len() > self.inside.mtu {
            return None;
        }
        let change = Change { ip_at: 16, port_at: 2, address: pair.endpoint.address, port: pair.endpoint.port };
        send(out, Side::Inside, next, self.inside.own, packet, head, flow.protocol, change);
        let remote = Remote { address: flow.source, port: flow.source_port };
        self.table.carry(slot, 1, remote, flow.flags, self.moment);
        out.notes.push((self.moment, Note::Used, Some(pair)));
        if self.inside.asks(pair.endpoint.address, self.moment) {
            request(out, Side::Inside, &self.inside, pair.endpoint.address);
        }
        Some(Outcome::Sent)
    }
}

/// Asks everyone for an address.
#[cold]
fn request(out: &mut Out, side: Side, from: &Interface, hop: u32) {
    out.frames.extend_from_slice(&BROADCAST);
    out.frames.extend_from_slice(&from.own);
    out.frames.extend_from_slice(&[8, 6, 0, 1, 8, 0, 6, 4, 0, 1]);
    out.frames.extend_from_slice(&from.own);
    out.frames.extend_from_slice(&from.own_address.to_be_bytes());
    out.frames.extend_from_slice(&[0; 6]);
    out.frames.extend_from_slice(&hop.to_be_bytes());
    out.sizes.push((side == Side::Inside, HEADER + 28));
}

/// The address and the port that a translation writes, and where.
#[derive(Clone, Copy)]
struct Change {
    ip_at: usize,
    port_at: usize,
    address: u32,
    port: u16,
}

#[allow(clippy::too_many_arguments)]
fn send(out: &mut Out, side: Side, next: Mac, own: Mac, packet: &[u8], head: usize, protocol: Protocol, change: Change) {
    let start = out.frames.len();
    out.frames.extend_from_slice(&next);
    out.frames.extend_from_slice(&own);
    out.frames.extend_from_slice(&[8, 0]);
    out.frames.extend_from_slice(packet);
    let sent = &mut out.frames[start + HEADER..];
    let addressed = address_change(address(sent, change.ip_at), change.address);
    let old_life = word(sent, 8);
    sent[8] -= 1;
    let header_sum = update(word(sent, 10), addressed + change_of(old_life, word(sent, 8)));
    sent[10..12].copy_from_slice(&header_sum.to_be_bytes());
    sent[change.ip_at..change.ip_at + 4].copy_from_slice(&change.address.to_be_bytes());
    rewrite_transport(&mut sent[head..], protocol, addressed, change);
    out.sizes.push((side == Side::Inside, HEADER + packet.len()));
}

fn rewrite_transport(sent: &mut [u8], protocol: Protocol, addressed: u32, change: Change) {
    let (port_at, sum_at) = match protocol {
        Protocol::Icmp => (4, 2),
        Protocol::Tcp => (change.port_at, 16),
        Protocol::Udp => (change.port_at, 6),
    };
    let (old_port, old_sum) = (word(sent, port_at), word(sent, sum_at));
    sent[port_at..port_at + 2].copy_from_slice(&change.port.to_be_bytes());
    if protocol == Protocol::Udp && old_sum == 0 {
        return;
    }
    let addressed = if protocol == Protocol::Icmp { 0 } else { addressed };
    let new_sum = update(old_sum, addressed + change_of(old_port, change.port));
    let written = if protocol == Protocol::Udp && new_sum == 0 { 0xffff } else { new_sum };
    sent[sum_at..sum_at + 2].copy_from_slice(&written.to_be_bytes());
}

// ---- what is measured

fn frame_of(side: Side, protocol: Protocol, size: u16) -> [u8; LONGEST] {
    let mut frame = [0; LONGEST];
    let start: &[u8; 38] = match side {
        Side::Inside => b"\x00\x00\x5e\x00\x01\x0b\x02\x00\x00\x00\x00\x0a\x08\x00\x45\x00\x00\x00\x00\x01\x00\x00\x40\x00\x00\x00\xc0\xa8\x01\x0a\xc6\x33\x64\x07\x00\x00\x00\x35",
        Side::Outside => b"\x00\x00\x5e\x00\x01\x0a\x02\x00\x00\x00\x00\xfe\x08\x00\x45\x00\x00\x00\x00\x01\x00\x00\x40\x00\x00\x00\xc6\x33\x64\x07\xc0\x00\x02\x01\x00\x35\x00\x00",
    };
    frame[..38].copy_from_slice(start);
    frame[16..18].copy_from_slice(&size.to_be_bytes());
    frame[23] = protocol.number();
    let header_sum = !sum(&frame[14..34]);
    frame[24..26].copy_from_slice(&header_sum.to_be_bytes());
    if protocol == Protocol::Tcp {
        frame[46..48].copy_from_slice(&[0x50, 0x10]);
        frame[50..52].copy_from_slice(&[0x12, 0x34]);
    } else {
        frame[38..40].copy_from_slice(&(size - 20).to_be_bytes());
        frame[40..42].copy_from_slice(&[0x12, 0x34]);
    }
    frame
}

fn set_pair(frame: &mut [u8; LONGEST], side: Side, number: u32) {
    let (first, at) = if side == Side::Inside { (FIRST_INSIDE, 34) } else { (FIRST_OUTSIDE, 36) };
    let port = (first + number % PORTS) as u16;
    frame[at..at + 2].copy_from_slice(&port.to_be_bytes());
}

/// A box, and what it told last.
struct Station {
    gateway: Gateway,
    out: Out,
}

impl Station {
    fn new(id: u8, ranges: [(u16, u16); 2]) -> Station {
        Station { gateway: Gateway::new(id, ranges), out: Out::default() }
    }

    /// The first box, Active, with so many pairs: of this protocol while it has ports, the others of the other one.
    fn ready(ranges: [(u16, u16); 2], protocol: Protocol, pairs: u32) -> Station {
        let mut station = Station::new(0, ranges);
        station.tick(ACTIVE);
        station.open(protocol, pairs.min(PORTS));
        station.open(if protocol == Protocol::Udp { Protocol::Tcp } else { Protocol::Udp }, pairs.saturating_sub(PORTS));
        station
    }

    fn open(&mut self, protocol: Protocol, pairs: u32) {
        let mut frame = frame_of(Side::Inside, protocol, 44);
        for number in 0..pairs {
            set_pair(&mut frame, Side::Inside, number);
            assert_eq!(self.hand(Side::Inside, &frame, 44), Outcome::Sent, "a pair wasn't opened");
        }
    }

    fn tick(&mut self, now: u64) {
        self.gateway.tick(now, &mut self.out);
    }

    fn hand(&mut self, side: Side, frame: &[u8; LONGEST], size: u16) -> Outcome {
        self.gateway.step(side, &frame[..HEADER + usize::from(size)], &mut self.out)
    }

    fn take(&mut self, other: &Station) {
        let mut start = 0;
        for length in &other.out.lengths {
            self.gateway.hear(&other.out.datagrams[start..start + length], &mut self.out);
            start += length;
        }
    }

    fn tells(&self) -> bool {
        !self.out.lengths.is_empty()
    }
}

/// What the first one told last, the other takes; it takes what that answers, and so on.
fn converse(first: &mut Station, other: &mut Station) {
    while first.tells() {
        other.take(first);
        if !other.tells() {
            break;
        }
        first.take(other);
    }
}

struct Both {
    zero: Station,
    one: Station,
    moment: u64,
}

impl Both {
    fn ready(ranges: [(u16, u16); 2], protocol: Protocol, pairs: u32) -> Both {
        Both { zero: Station::ready(ranges, protocol, pairs), one: Station::new(1, ranges), moment: 0 }
    }

    fn synced(ranges: [(u16, u16); 2], protocol: Protocol, pairs: u32) -> Both {
        let mut both = Both::ready(ranges, protocol, pairs);
        while !both.one.gateway.up {
            both.tick(1);
        }
        both
    }

    fn tick(&mut self, by: u64) {
        self.moment += by;
        self.zero.tick(ACTIVE + self.moment);
        converse(&mut self.zero, &mut self.one);
        self.one.tick(self.moment);
        converse(&mut self.one, &mut self.zero);
    }

    /// A packet of a new flow: its pair is proposed and accepted, and the packet goes.
    fn opens(&mut self, frame: &[u8; LONGEST]) -> bool {
        self.zero.hand(Side::Inside, frame, 44);
        self.one.take(&self.zero);
        self.zero.take(&self.one);
        let sent = !self.zero.out.sizes.is_empty();
        self.one.take(&self.zero);
        sent
    }

    fn come_to_one(&mut self, number: u32) {
        let mut frame = frame_of(Side::Inside, Protocol::Tcp, 44);
        set_pair(&mut frame, Side::Inside, number);
        self.one.hand(Side::Inside, &frame, 44);
    }

    /// The first box tells the beginning of its batch last.
    fn begin(&mut self) {
        self.zero.tick(ACTIVE + 1);
        self.one.take(&self.zero);
        self.one.tick(1);
        self.zero.take(&self.one);
        assert!(self.zero.tells(), "no batch begins");
    }
}

fn measure(station: &mut Station, side: Side, protocol: Protocol, size: u16, count: u32, pairs: u32) -> (u128, u32) {
    let mut frame = frame_of(side, protocol, size);
    let mut sent = 0;
    let start = Instant::now();
    for number in 0..count {
        set_pair(&mut frame, side, number.wrapping_mul(STRIDE) % pairs.clamp(1, PORTS));
        sent += u32::from(station.hand(side, &frame, size) == Outcome::Sent);
    }
    (start.elapsed().as_nanos() / u128::from(count.max(1)), sent)
}

fn report_packets(count: u32, pairs: u32) {
    for (protocol, name) in [(Protocol::Udp, "udp"), (Protocol::Tcp, "tcp")] {
        let mut station = Station::ready(RANGES, protocol, pairs);
        for (side, from, size) in [(Side::Inside, "inside", 44), (Side::Outside, "outside", 44), (Side::Inside, "inside", 1500), (Side::Outside, "outside", 1500)] {
            let (each, sent) = measure(&mut station, side, protocol, size, count, pairs);
            println!("{pairs} pairs, {name} {size} bytes from {from}: {each} ns, {sent} of {count} sent");
        }
    }
}

/// One kind of packets alone, so that its instructions can be counted; at a box that is alone, or one of two.
fn report_kind(words: &[String], is_synced: bool) {
    let side = if words[0] == "inside" { Side::Inside } else { Side::Outside };
    let protocol = if words[1] == "tcp" { Protocol::Tcp } else { Protocol::Udp };
    let [size, count, pairs] = [2, 3, 4].map(|at| number(words, at));
    let mut station = if is_synced { Both::synced(RANGES, protocol, pairs).zero } else { Station::ready(RANGES, protocol, pairs) };
    let (each, sent) = measure(&mut station, side, protocol, size as u16, count, pairs);
    println!("{each} ns, {sent} of {count} sent");
}

fn report_new(count: u32) {
    let mut both = Both::synced(RANGES, Protocol::Udp, 0);
    let mut sent = 0;
    let start = Instant::now();
    for number in 0..count {
        let protocol = if number < PORTS { Protocol::Udp } else { Protocol::Tcp };
        let mut frame = frame_of(Side::Inside, protocol, 44);
        set_pair(&mut frame, Side::Inside, number);
        sent += u32::from(both.opens(&frame));
    }
    println!("{} ns, {sent} of {count} sent", start.elapsed().as_nanos() / u128::from(count.max(1)));
}

fn report_lone(count: u32) {
    let start = Instant::now();
    let station = Station::ready(RANGES, Protocol::Udp, count);
    let each = start.elapsed().as_nanos() / u128::from(count.max(1));
    println!("{each} ns, {} of {count} sent", station.gateway.table.entries.len());
}

fn report_pair(count: u32, pairs: u32) {
    let mut both = Both::synced(RANGES, Protocol::Tcp, pairs);
    let start = Instant::now();
    (0..count).for_each(|_| both.tick(LINK_INTERVAL));
    let each = start.elapsed().as_nanos() / u128::from(count.max(1));
    let heard = both.zero.gateway.link.heard.is_some_and(|at| both.zero.gateway.moment - at <= HEARD_FOR);
    assert!(heard, "the other box isn't heard");
    println!("{each} ns, {} pairs held", both.one.gateway.table.entries.len());
}

fn report_ticks(count: u32, pairs: u32, by: u64) {
    let mut station = Station::ready(RANGES, Protocol::Tcp, pairs);
    let start = Instant::now();
    for tick in 1..=u64::from(count) {
        station.tick(ACTIVE + by * tick);
    }
    let each = start.elapsed().as_nanos() / u128::from(count.max(1));
    println!("{each} ns, {} pairs held", station.gateway.table.entries.len());
}

fn report_ports(what: &str, count: u32) {
    let held = match what {
        "want" => {
            let mut both = Both::synced(UNEVEN, Protocol::Udp, PORTS);
            (0..50).for_each(|_| both.tick(10));
            both.come_to_one(0);
            converse(&mut both.one, &mut both.zero);
            both.come_to_one(1);
            assert!(both.one.tells(), "no port is asked for");
            (0..count).for_each(|_| both.zero.take(&both.one));
            both.zero.gateway.table.entries.len()
        }
        "begin" => {
            let mut both = Both::ready(RANGES, Protocol::Udp, 0);
            both.begin();
            (0..count).for_each(|_| both.one.take(&both.zero));
            both.one.gateway.table.entries.len()
        }
        _ => {
            let mut both = Both::ready(RANGES, Protocol::Udp, PORTS);
            both.begin();
            (0..count).for_each(|_| converse(&mut both.zero, &mut both.one));
            both.one.gateway.table.entries.len()
        }
    };
    println!("{held} entries");
}

fn number(words: &[String], at: usize) -> u32 {
    words.get(at).expect("a number is missing").parse().expect("a number")
}

fn main() {
    // Here no box needs another one's answer, and what is no fragment costs the same: `alone` and `pass` change nothing.
    let words: Vec<String> = std::env::args().skip(1).filter(|word| word != "alone" && word != "pass").collect();
    let Some((command, words)) = words.split_first() else {
        return;
    };
    match command.as_str() {
        "packets" => (1..words.len()).for_each(|at| report_packets(number(words, 0), number(words, at))),
        "kind" => report_kind(words, false),
        "synced" => report_kind(words, true),
        "new" => report_new(number(words, 0)),
        "lone" | "begun" => report_lone(number(words, 0)),
        "pair" => report_pair(number(words, 0), number(words, 1)),
        "idle" => report_ticks(number(words, 0), number(words, 1), 1),
        "still" => report_ticks(number(words, 0), number(words, 1), 0),
        "ports" => report_ports(&words[0], number(words, 1)),
        "start" => assert_eq!(Gateway::new(0, RANGES).id, 0),
        _ => panic!("there is no such command"),
    }
}
