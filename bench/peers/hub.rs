//! A plain publish-subscribe hub for one thread: what a Rust engineer writes in a day, without proofs and without crates. Messages lie in
//! one pool of slots with counts of uses; services, ports and connections in vectors by number; loans and samples in hash maps by number.
use std::collections::{HashMap, VecDeque};
use std::hash::{BuildHasherDefault, Hasher};
use std::mem;
use std::ops::{Index, IndexMut};

const LONGEST_SLICE: u64 = u32::MAX as u64;
const MOST_SEGMENTS: u64 = 255;
const MOST_EXPIRED: u64 = 128;
const LOAN_ERRORS: [&str; 3] = ["LoanError::ExceedsMaxLoanSize", "LoanError::ExceedsMaxLoans", "LoanError::OutOfMemory"];
const PUT_ERRORS: [&str; 3] =
    ["SendError::LoanError(ExceedsMaxLoanSize)", "SendError::LoanError(ExceedsMaxLoans)", "SendError::LoanError(OutOfMemory)"];

/// Why a command has no result. The text is behind a thin reference, so that a result fits into two registers.
pub enum Stop { Faulty, Skipped, Refused(&'static &'static str) }

/// Why a node doesn't get a factory.
pub enum Disagreed { Skipped, Create(&'static str), Open(&'static str) }

/// What was made, by number from 1 on.
struct Made<T>(Vec<Option<Box<T>>>);

impl<T> Made<T> {
    fn add(&mut self, it: T) -> u64 {
        self.0.push(Some(Box::new(it)));
        self.0.len() as u64
    }

    #[inline]
    fn get(&mut self, number: u64) -> Result<&mut T, Stop> {
        self.0.get_mut(number.wrapping_sub(1) as usize).and_then(Option::as_deref_mut).ok_or(Stop::Skipped)
    }

    fn end(&mut self, number: u64) -> Box<T> {
        self.0[number as usize - 1].take().unwrap()
    }
}

impl<T> Default for Made<T> {
    fn default() -> Self {
        Made(Vec::new())
    }
}

impl<T> Index<u64> for Made<T> {
    type Output = T;

    fn index(&self, number: u64) -> &T {
        self.0[number as usize - 1].as_deref().unwrap()
    }
}

impl<T> IndexMut<u64> for Made<T> {
    fn index_mut(&mut self, number: u64) -> &mut T {
        self.0[number as usize - 1].as_deref_mut().unwrap()
    }
}

/// Spreads numbers that count up.
#[derive(Default)]
struct Spread(u64);

impl Hasher for Spread {
    fn write(&mut self, _: &[u8]) {}

    fn write_u64(&mut self, number: u64) {
        self.0 = number.wrapping_mul(0x9E37_79B9_7F4A_7C15);
    }

    fn finish(&self) -> u64 {
        self.0
    }
}

/// Of each setting, in the order in which an opener tests them: its key, whether it is a switch (which must be equal, and a number as
/// large), what it is by default and at least, what it is below, and the error where it isn't met.
pub const SETTINGS: [(&str, bool, u64, u64, u64, &str); 8] = [
    ("overflow", true, 1, 0, 2, "IncompatibleOverflowBehavior"),
    ("sequence", true, 0, 0, 2, "IncompatibleSequenceNumbers"),
    ("publishers", false, 2, 1, 1 << 24, "DoesNotSupportRequestedAmountOfPublishers"),
    ("subscribers", false, 8, 1, 1 << 24, "DoesNotSupportRequestedAmountOfSubscribers"),
    ("buffer", false, 2, 1, 1 << 32, "DoesNotSupportRequestedMinBufferSize"),
    ("history", false, 0, 0, 1 << 32, "DoesNotSupportRequestedMinHistorySize"),
    ("borrowed", false, 2, 1, 1 << 32, "DoesNotSupportRequestedMinSubscriberBorrowedSamples"),
    ("nodes", false, 20, 1, 1 << 24, "DoesNotSupportRequestedAmountOfNodes"),
];

/// What is asked of each setting, and what was agreed on.
pub type Asked = [Option<u64>; 8];
type Agreed = [u64; 8];

fn agreed(asked: &Asked) -> Result<Agreed, &'static str> {
    let mut agreed = [0; 8];
    for (index, (_, _, default, least, end, _)) in SETTINGS.into_iter().enumerate() {
        agreed[index] = asked[index].unwrap_or(default).max(least);
        if agreed[index] >= end {
            return Err("InternalFailure");
        }
    }
    let [overflow, _, _, _, buffer, history, ..] = agreed;
    if overflow == 0 && buffer < history { Err("SubscriberBufferMustBeLargerThanHistorySize") } else { Ok(agreed) }
}

fn verdict(asked: &Asked, agreed: &Agreed) -> Result<(), &'static str> {
    for (index, (_, is_switch, .., unmet)) in SETTINGS.into_iter().enumerate() {
        if asked[index].is_some_and(|it| it > agreed[index] || is_switch && it < agreed[index]) {
            return Err(unmet);
        }
    }
    Ok(())
}

/// The ports of one kind by place, and how often they changed.
#[derive(Default)]
struct Places { ports: Vec<Option<u64>>, changes: u64 }

impl Places {
    /// Puts a port into the lowest free place.
    fn enter(&mut self, most: u64, port: u64, refusal: &'static &'static str) -> Result<usize, Stop> {
        let free = self.ports.iter().position(Option::is_none).unwrap_or(self.ports.len());
        if free as u64 == most {
            return Err(Stop::Refused(refusal));
        }
        self.ports.resize(self.ports.len().max(free + 1), None);
        self.set(free, Some(port));
        Ok(free)
    }

    fn set(&mut self, place: usize, port: Option<u64>) {
        self.ports[place] = port;
        self.changes += 1;
    }
}

struct Service {
    name: Vec<u8>,
    agreed: Agreed,
    /// Each node that has it open, with the number of its factories.
    nodes: Vec<(u64, u64)>,
    publishers: Places,
    subscribers: Places,
}

/// A node's access to a service. What uses it are ports, loans and samples.
struct Factory { node: u64, service: u64, uses: u64 }

#[derive(Clone, Copy, PartialEq)]
pub enum Way { Create, Open, OpenOrCreate }

#[derive(Clone, Copy, Default, PartialEq)]
enum Growth { #[default] Static, Exact, PowerOfTwo }

#[derive(Clone, Copy, Default)]
enum AtFull { #[default] Retry, Discard, Fail }

/// A send on its way through the mailboxes.
struct Sending { slot: usize, next: usize, taken: u64, fails: bool }

#[derive(Default)]
struct Publisher {
    service: u64,
    factory: u64,
    place: usize,
    overflows: bool,
    at_full: AtFull,
    most_history: usize,
    most_loans: u64,
    loans: u64,
    growth: Growth,
    /// The newest segment: its number, the length of its slots, how many it has, and how many of them are in use.
    segment: u64,
    slice: u64,
    slots: u64,
    used: u64,
    history: VecDeque<usize>,
    /// The connection to the subscriber at each place.
    links: Vec<Option<u64>>,
    seen: u64,
    sequence: u64,
    blocked: Option<Sending>,
}

#[derive(Default)]
struct Subscriber {
    service: u64,
    factory: u64,
    place: usize,
    buffer: usize,
    most_borrowed: u64,
    degrade_fails: bool,
    keys: Vec<Option<u64>>,
    free_keys: Vec<usize>,
    /// The connection to the publisher at each place, until it ends or expires.
    links: Vec<Option<u64>>,
    expired: Vec<u64>,
    seen: Option<u64>,
}

#[derive(Default)]
struct Connection {
    publisher: u64,
    subscriber: u64,
    waiting: VecDeque<usize>,
    buffer: usize,
    borrowed: u64,
    key: usize,
    has_publisher: bool,
    has_subscriber: bool,
}

impl Connection {
    fn is_idle(&self) -> bool {
        self.waiting.is_empty() && self.borrowed == 0
    }
}

#[derive(Default)]
struct Slot { uses: u64, publisher: u64, segment: u64, sequence: u64, is_written: bool, values: Vec<u64> }

struct Loan { slot: usize, publisher: u64, factory: u64 }

struct Sample { slot: usize, connection: u64, factory: u64 }

#[derive(Default)]
pub struct Hub {
    nodes: u64,
    names: HashMap<Vec<u8>, u64>,
    services: Made<Service>,
    factories: Made<Factory>,
    publishers: Made<Publisher>,
    subscribers: Made<Subscriber>,
    connections: Made<Connection>,
    slots: Vec<Slot>,
    free_slots: Vec<usize>,
    loans: HashMap<u64, Loan, BuildHasherDefault<Spread>>,
    last_loan: u64,
    samples: HashMap<u64, Sample, BuildHasherDefault<Spread>>,
    last_sample: u64,
}

impl Hub {
    pub fn node(&mut self) -> u64 {
        self.nodes += 1;
        self.nodes
    }

    pub fn agree(&mut self, way: Way, node: u64, name: &[u8], asked: &Asked) -> Result<u64, Disagreed> {
        if node == 0 || node > self.nodes {
            return Err(Disagreed::Skipped);
        }
        let service = match (way, self.names.get(name)) {
            (Way::Open, None) => return Err(Disagreed::Open("DoesNotExist")),
            (Way::Create, Some(_)) => return Err(Disagreed::Create(agreed(asked).err().unwrap_or("AlreadyExists"))),
            (_, Some(&service)) => self.join(service, node, asked).map_err(Disagreed::Open)?,
            (_, None) => self.create(name, agreed(asked).map_err(Disagreed::Create)?, node),
        };
        Ok(self.factories.add(Factory { node, service, uses: 0 }))
    }

    fn join(&mut self, number: u64, node: u64, asked: &Asked) -> Result<u64, &'static str> {
        let Service { agreed, nodes, .. } = &mut self.services[number];
        verdict(asked, agreed)?;
        match nodes.iter().position(|it| it.0 == node) {
            Some(at) => nodes[at].1 += 1,
            None if nodes.len() as u64 == agreed[7] => return Err("ExceedsMaxNumberOfNodes"),
            None => nodes.push((node, 1)),
        }
        Ok(number)
    }

    fn create(&mut self, name: &[u8], agreed: Agreed, node: u64) -> u64 {
        let (publishers, subscribers) = (Places::default(), Places::default());
        let service = self.services.add(Service { name: name.to_vec(), agreed, nodes: vec![(node, 1)], publishers, subscribers });
        self.names.insert(name.to_vec(), service);
        service
    }

    pub fn close(&mut self, number: u64) -> Result<(), Stop> {
        if self.factories.get(number)?.uses > 0 {
            return Err(Stop::Refused(&"CloseError::StillInUse"));
        }
        let factory = self.factories.end(number);
        let nodes = &mut self.services[factory.service].nodes;
        let at = nodes.iter().position(|it| it.0 == factory.node).unwrap();
        nodes[at].1 -= 1;
        if nodes[at].1 == 0 {
            nodes.remove(at);
        }
        if nodes.is_empty() {
            self.names.remove(&self.services.end(factory.service).name);
        }
        Ok(())
    }

    /// The options are those of a line: numbers, and of words the place in their list.
    pub fn publisher(&mut self, factory: u64, options: [Option<u64>; 7]) -> Result<u64, Stop> {
        let [loans, slots, slice, growth, strategy, handler, _] = options;
        let Factory { service, uses, .. } = self.factories.get(factory)?;
        let Service { agreed, publishers, .. } = &mut self.services[*service];
        let [overflow, _, most, subscribers, buffer, history, borrowed, _] = *agreed;
        let (most_loans, slice) = (loans.unwrap_or(2), slice.unwrap_or(1));
        let worst = (subscribers * (buffer + borrowed) + history).saturating_add(most_loans);
        if worst > LONGEST_SLICE || slice > LONGEST_SLICE {
            return Err(Stop::Refused(&"PublisherCreateError::UnableToCreateDataSegment"));
        }
        let number = self.publishers.0.len() as u64 + 1;
        let place = publishers.enter(most, number, &"PublisherCreateError::ExceedsMaxSupportedPublishers")?;
        *uses += 1;
        self.publishers.add(Publisher {
            service: *service,
            factory,
            place,
            overflows: overflow == 1,
            at_full: [AtFull::Retry, AtFull::Discard, AtFull::Fail][handler.unwrap_or(0).checked_sub(1).or(strategy).unwrap_or(0) as usize],
            most_history: history as usize,
            most_loans,
            growth: [Growth::Static, Growth::Exact, Growth::PowerOfTwo][growth.unwrap_or(0) as usize],
            segment: 1,
            slice,
            slots: slots.unwrap_or(worst).clamp(1, worst),
            ..Publisher::default()
        });
        self.bring_publisher_up_to_date(number);
        Ok(number)
    }

    pub fn subscriber(&mut self, factory: u64, [buffer, degrade]: [Option<u64>; 2]) -> Result<u64, Stop> {
        let Factory { service, uses, .. } = self.factories.get(factory)?;
        let Service { agreed, subscribers, .. } = &mut self.services[*service];
        let [_, _, _, most, most_buffer, _, most_borrowed, _] = *agreed;
        let buffer = buffer.unwrap_or(most_buffer).max(1);
        if buffer > most_buffer {
            return Err(Stop::Refused(&"SubscriberCreateError::BufferSizeExceedsMaxSupportedBufferSizeOfService"));
        }
        let number = self.subscribers.0.len() as u64 + 1;
        let place = subscribers.enter(most, number, &"SubscriberCreateError::ExceedsMaxSupportedSubscribers")?;
        *uses += 1;
        let (buffer, degrade_fails) = (buffer as usize, degrade == Some(2));
        let port = Subscriber { service: *service, factory, place, buffer, most_borrowed, degrade_fails, ..Subscriber::default() };
        self.subscribers.add(port);
        self.bring_subscriber_up_to_date(number);
        Ok(number)
    }

    /// The connection that the other end made already, or a new one.
    fn connection(&mut self, known: Option<u64>, publisher: u64, subscriber: u64) -> u64 {
        match known.filter(|it| (self.connections[*it].publisher, self.connections[*it].subscriber) == (publisher, subscriber)) {
            Some(known) => known,
            None => {
                let buffer = self.subscribers[subscriber].buffer;
                self.connections.add(Connection { publisher, subscriber, buffer, ..Connection::default() })
            }
        }
    }

    /// Drops what waits in a connection.
    fn empty(&mut self, number: u64) {
        for slot in mem::take(&mut self.connections[number].waiting) {
            self.let_go(slot);
        }
    }

    /// Ends a connection that has neither end any more, once no sample of it is held.
    fn end_if_alone(&mut self, number: u64) {
        let Connection { has_publisher, has_subscriber, borrowed, .. } = self.connections[number];
        if !has_publisher && !has_subscriber {
            self.empty(number);
            if borrowed == 0 {
                self.connections.end(number);
            }
        }
    }

    #[inline(always)]
    fn bring_publisher_up_to_date(&mut self, number: u64) {
        let publisher = &self.publishers[number];
        if publisher.seen != self.services[publisher.service].subscribers.changes {
            self.connect_publisher(number);
        }
    }

    fn connect_publisher(&mut self, number: u64) {
        let publisher = &mut self.publishers[number];
        let subscribers = &self.services[publisher.service].subscribers;
        publisher.seen = subscribers.changes;
        publisher.links.resize(subscribers.ports.len(), None);
        for (place, subscriber) in subscribers.ports.clone().into_iter().enumerate() {
            let link = self.publishers[number].links[place];
            if link.map(|it| self.connections[it].subscriber) == subscriber {
                continue;
            }
            if let Some(link) = link {
                self.empty(link);
                self.connections[link].has_publisher = false;
                self.end_if_alone(link);
            }
            self.publishers[number].links[place] = subscriber.map(|it| self.linked(number, it));
        }
    }

    /// The connection to a subscriber that is new to a publisher, with what fits of the history.
    fn linked(&mut self, number: u64, subscriber: u64) -> u64 {
        let known = self.subscribers[subscriber].links.get(self.publishers[number].place).copied().flatten();
        let link = self.connection(known, number, subscriber);
        let connection = &mut self.connections[link];
        connection.has_publisher = true;
        let history = &self.publishers[number].history;
        for &slot in history.range(history.len().saturating_sub(connection.buffer)..) {
            connection.waiting.push_back(slot);
            self.slots[slot].uses += 1;
        }
        link
    }

    /// Whether each publisher that is asked for is connected.
    #[inline(always)]
    fn bring_subscriber_up_to_date(&mut self, number: u64) -> bool {
        let subscriber = &self.subscribers[number];
        subscriber.seen == Some(self.services[subscriber.service].publishers.changes) || self.connect_subscriber(number)
    }

    fn connect_subscriber(&mut self, number: u64) -> bool {
        let subscriber = &mut self.subscribers[number];
        let publishers = &self.services[subscriber.service].publishers;
        let changes = publishers.changes;
        subscriber.links.resize(publishers.ports.len(), None);
        let (there, gone): (Vec<_>, Vec<_>) = publishers.ports.clone().into_iter().enumerate().partition(|it| it.1.is_some());
        let mut all = true;
        for (place, publisher) in there.into_iter().chain(gone) {
            let link = self.subscribers[number].links[place];
            if link.map(|it| self.connections[it].publisher) == publisher {
                continue;
            }
            if link.is_some_and(|it| !self.expires(number, place, it)) {
                all &= publisher.is_none();
            } else if let Some(publisher) = publisher {
                self.attach(number, place, publisher);
            }
        }
        let subscriber = &mut self.subscribers[number];
        subscriber.seen = all.then_some(changes);
        all || !subscriber.degrade_fails
    }

    fn attach(&mut self, number: u64, place: usize, publisher: u64) {
        let known = self.publishers[publisher].links.get(self.subscribers[number].place).copied().flatten();
        let link = self.connection(known, publisher, number);
        let Subscriber { keys, free_keys, links, .. } = &mut self.subscribers[number];
        let key = free_keys.pop().unwrap_or(keys.len());
        keys.resize(keys.len().max(key + 1), None);
        (keys[key], links[place]) = (Some(link), Some(link));
        let connection = &mut self.connections[link];
        (connection.key, connection.has_subscriber) = (key, true);
    }

    /// Whether a connection whose publisher left ends or expires; for it to expire another one may have to end. Else it stays.
    fn expires(&mut self, number: u64, place: usize, link: u64) -> bool {
        let Subscriber { links, expired, most_borrowed, .. } = &mut self.subscribers[number];
        let find = |wanted: fn(&Connection) -> bool| expired.iter().position(|it| wanted(&self.connections[*it]));
        let (it, idle, unborrowed) = (&self.connections[link], find(Connection::is_idle), find(|it| it.borrowed == 0));
        let ends = if it.is_idle() {
            Some(link)
        } else if (expired.len() as u64) < MOST_EXPIRED.max(*most_borrowed) {
            None
        } else if let Some(idle) = idle {
            Some(expired.remove(idle))
        } else if it.borrowed == 0 {
            Some(link)
        } else if let Some(unborrowed) = unborrowed {
            Some(expired.remove(unborrowed))
        } else {
            return false;
        };
        links[place] = None;
        if ends != Some(link) {
            expired.push(link);
        }
        if let Some(ends) = ends {
            self.detach(number, ends);
        }
        true
    }

    /// A subscriber leaves a connection of a publisher that left: its key is the next that is given.
    fn detach(&mut self, number: u64, link: u64) {
        let connection = &mut self.connections[link];
        connection.has_subscriber = false;
        let Subscriber { keys, free_keys, .. } = &mut self.subscribers[number];
        keys[connection.key] = None;
        free_keys.push(connection.key);
        self.end_if_alone(link);
    }

    pub fn update_publisher(&mut self, number: u64) -> Result<(), Stop> {
        self.unblocked(number)?;
        self.bring_publisher_up_to_date(number);
        Ok(())
    }

    pub fn update_subscriber(&mut self, number: u64) -> Result<(), Stop> {
        self.subscribers.get(number)?;
        let refusal = &"ConnectionFailure::FailedToEstablishConnection(ExpiredConnectionBufferFull)";
        if self.bring_subscriber_up_to_date(number) { Ok(()) } else { Err(Stop::Refused(refusal)) }
    }

    pub fn leave_publisher(&mut self, number: u64) -> Result<(), Stop> {
        self.unblocked(number)?;
        let publisher = self.publishers.end(number);
        self.services[publisher.service].publishers.set(publisher.place, None);
        self.factories[publisher.factory].uses -= 1;
        for slot in publisher.history {
            self.let_go(slot);
        }
        for link in publisher.links.into_iter().flatten() {
            self.connections[link].has_publisher = false;
            self.end_if_alone(link);
        }
        Ok(())
    }

    pub fn leave_subscriber(&mut self, number: u64) -> Result<(), Stop> {
        self.subscribers.get(number)?;
        let subscriber = self.subscribers.end(number);
        self.services[subscriber.service].subscribers.set(subscriber.place, None);
        self.factories[subscriber.factory].uses -= 1;
        for link in subscriber.keys.into_iter().flatten() {
            self.connections[link].has_subscriber = false;
            self.end_if_alone(link);
        }
        Ok(())
    }

    #[inline]
    fn let_go(&mut self, slot: usize) {
        let it = &mut self.slots[slot];
        it.uses -= 1;
        if it.uses == 0 {
            self.free_slots.push(slot);
            if let Some(publisher) = &mut self.publishers.0[it.publisher as usize - 1] {
                publisher.used -= u64::from(publisher.segment == it.segment);
            }
        }
    }

    /// A publisher of which no send is blocked.
    #[inline]
    fn unblocked(&mut self, number: u64) -> Result<&mut Publisher, Stop> {
        let publisher = self.publishers.get(number)?;
        if publisher.blocked.is_some() { Err(Stop::Skipped) } else { Ok(publisher) }
    }

    /// A slot on loan for so many values, or a refusal: too long, too many loans, no slot.
    #[inline]
    fn lend(&mut self, number: u64, length: u64, [too_long, too_many, none]: &'static [&'static str; 3]) -> Result<usize, Stop> {
        let publisher = self.unblocked(number)?;
        if length > publisher.slice && publisher.growth == Growth::Static {
            return Err(Stop::Refused(too_long));
        }
        if publisher.loans >= publisher.most_loans {
            return Err(Stop::Refused(too_many));
        }
        if length > publisher.slice {
            let longer = if publisher.growth == Growth::Exact { Some(length) } else { length.checked_next_power_of_two() };
            let fits = |it: &u64| *it <= LONGEST_SLICE && publisher.segment < MOST_SEGMENTS;
            publisher.slice = longer.filter(fits).ok_or(Stop::Refused(none))?;
            publisher.segment += 1;
            publisher.used = 0;
        }
        if publisher.used >= publisher.slots {
            return Err(Stop::Refused(none));
        }
        publisher.loans += 1;
        publisher.used += 1;
        let segment = publisher.segment;
        let slot = self.free_slots.pop().unwrap_or_else(|| {
            self.slots.push(Slot::default());
            self.slots.len() - 1
        });
        let it = &mut self.slots[slot];
        (it.uses, it.publisher, it.segment) = (1, number, segment);
        it.values.clear();
        Ok(slot)
    }

    pub fn loan(&mut self, publisher: u64, length: u64, is_written: bool) -> Result<u64, Stop> {
        let slot = self.lend(publisher, length, &LOAN_ERRORS)?;
        let it = &mut self.slots[slot];
        it.values.resize(length as usize, 0);
        it.is_written = is_written || length == 0;
        let factory = self.publishers[publisher].factory;
        self.factories[factory].uses += 1;
        self.last_loan += 1;
        self.loans.insert(self.last_loan, Loan { slot, publisher, factory });
        Ok(self.last_loan)
    }

    pub fn set(&mut self, loan: u64, place: u64, value: u64) -> Result<(), Stop> {
        let slot = &mut self.slots[self.loans.get(&loan).ok_or(Stop::Skipped)?.slot];
        *slot.values.get_mut(place as usize).filter(|_| slot.is_written).ok_or(Stop::Skipped)? = value;
        Ok(())
    }

    pub fn fill(&mut self, loan: u64, values: &[u64]) -> Result<(), Stop> {
        let slot = &mut self.slots[self.loans.get(&loan).ok_or(Stop::Skipped)?.slot];
        if slot.values.len() != values.len() {
            return Err(Stop::Skipped);
        }
        slot.values.copy_from_slice(values);
        slot.is_written = true;
        Ok(())
    }

    pub fn drop_loan(&mut self, loan: u64) -> Result<(), Stop> {
        let Loan { slot, publisher, factory } = self.loans.remove(&loan).ok_or(Stop::Skipped)?;
        self.factories[factory].uses -= 1;
        if let Ok(publisher) = self.publishers.get(publisher) {
            publisher.loans -= 1;
        }
        self.let_go(slot);
        Ok(())
    }

    /// How many mailboxes took the loan, or None where the send is blocked; so below.
    pub fn send(&mut self, loan: u64) -> Result<Option<u64>, Stop> {
        let &Loan { slot, publisher, factory } = self.loans.get(&loan).ok_or(Stop::Skipped)?;
        let is_open = self.publishers.get(publisher).is_ok();
        if !self.slots[slot].is_written || is_open && self.unblocked(publisher).is_err() {
            return Err(Stop::Skipped);
        }
        self.loans.remove(&loan);
        self.factories[factory].uses -= 1;
        if is_open {
            return self.send_slot(publisher, slot);
        }
        self.let_go(slot);
        Err(Stop::Refused(&"SendError::ConnectionBrokenSinceSenderNoLongerExists"))
    }

    pub fn put(&mut self, publisher: u64, values: &[u64]) -> Result<Option<u64>, Stop> {
        let slot = self.lend(publisher, values.len() as u64, &PUT_ERRORS)?;
        self.slots[slot].values.extend_from_slice(values);
        self.send_slot(publisher, slot)
    }

    fn send_slot(&mut self, number: u64, slot: usize) -> Result<Option<u64>, Stop> {
        self.bring_publisher_up_to_date(number);
        let publisher = &mut self.publishers[number];
        publisher.sequence += 1;
        self.slots[slot].sequence = publisher.sequence;
        if publisher.most_history > 0 {
            publisher.history.push_back(slot);
            self.slots[slot].uses += 1;
            if publisher.history.len() > publisher.most_history {
                let oldest = publisher.history.pop_front().unwrap();
                self.let_go(oldest);
            }
        }
        self.go_on(number, Sending { slot, next: 0, taken: 0, fails: false })
    }

    fn go_on(&mut self, number: u64, mut sending: Sending) -> Result<Option<u64>, Stop> {
        let slot = sending.slot;
        while let Some(&link) = self.publishers[number].links.get(sending.next) {
            sending.next += 1;
            let Some(link) = link else { continue };
            let publisher = &mut self.publishers[number];
            let connection = &mut self.connections[link];
            let is_full = connection.waiting.len() >= connection.buffer;
            if is_full && !publisher.overflows {
                match publisher.at_full {
                    AtFull::Retry if connection.has_subscriber => {
                        sending.next -= 1;
                        publisher.blocked = Some(sending);
                        return Ok(None);
                    }
                    AtFull::Fail => sending.fails |= connection.has_subscriber,
                    _ => {}
                }
                continue;
            }
            let oldest = if is_full { connection.waiting.pop_front() } else { None };
            connection.waiting.push_back(slot);
            self.slots[slot].uses += 1;
            sending.taken += 1;
            if let Some(oldest) = oldest {
                self.let_go(oldest);
            }
        }
        self.publishers[number].loans -= 1;
        self.let_go(slot);
        if sending.fails { Err(Stop::Refused(&"SendError::UnableToDeliver")) } else { Ok(Some(sending.taken)) }
    }

    pub fn retry(&mut self, number: u64) -> Result<Option<u64>, Stop> {
        let sending = self.publishers.get(number)?.blocked.take().ok_or(Stop::Skipped)?;
        self.go_on(number, sending)
    }

    pub fn give_up(&mut self, number: u64) -> Result<u64, Stop> {
        let publisher = self.publishers.get(number)?;
        let sending = publisher.blocked.take().ok_or(Stop::Skipped)?;
        publisher.loans -= 1;
        self.let_go(sending.slot);
        Ok(sending.taken)
    }

    /// A sample's number and its values, if a message waits.
    pub fn receive(&mut self, number: u64) -> Result<Option<(u64, &[u64])>, Stop> {
        self.subscribers.get(number)?;
        if !self.bring_subscriber_up_to_date(number) {
            let refusal = &"ReceiveError::ConnectionFailure(FailedToEstablishConnection(ExpiredConnectionBufferFull))";
            return Err(Stop::Refused(refusal));
        }
        let mut next = 0;
        while let Some(&link) = self.subscribers[number].expired.get(next) {
            let it = &self.connections[link];
            if !it.waiting.is_empty() && it.borrowed < self.subscribers[number].most_borrowed {
                return Ok(Some(self.take(number, link)));
            }
            if it.is_idle() {
                self.subscribers[number].expired.remove(next);
                self.detach(number, link);
            } else {
                next += 1;
            }
        }
        let mut waits = false;
        let subscriber = &self.subscribers[number];
        for &link in subscriber.keys.iter().flatten() {
            let it = &self.connections[link];
            if !it.waiting.is_empty() && it.borrowed < subscriber.most_borrowed {
                return Ok(Some(self.take(number, link)));
            }
            waits |= !it.waiting.is_empty();
        }
        if waits { Err(Stop::Refused(&"ReceiveError::ExceedsMaxBorrows")) } else { Ok(None) }
    }

    #[inline]
    fn take(&mut self, subscriber: u64, connection: u64) -> (u64, &[u64]) {
        let it = &mut self.connections[connection];
        it.borrowed += 1;
        let slot = it.waiting.pop_front().unwrap();
        let factory = self.subscribers[subscriber].factory;
        self.factories[factory].uses += 1;
        self.last_sample += 1;
        self.samples.insert(self.last_sample, Sample { slot, connection, factory });
        (self.last_sample, &self.slots[slot].values)
    }

    pub fn has(&mut self, number: u64) -> Result<bool, Stop> {
        self.update_subscriber(number)?;
        Ok(self.subscribers[number].keys.iter().flatten().any(|it| !self.connections[*it].waiting.is_empty()))
    }

    pub fn read(&self, sample: u64) -> Result<&[u64], Stop> {
        Ok(&self.slots[self.samples.get(&sample).ok_or(Stop::Skipped)?.slot].values)
    }

    /// The number of a sample's message, if its service numbers them.
    pub fn sequence(&self, sample: u64) -> Result<Option<u64>, Stop> {
        let sample = self.samples.get(&sample).ok_or(Stop::Skipped)?;
        let [_, has_sequence, ..] = self.services[self.factories[sample.factory].service].agreed;
        Ok((has_sequence == 1).then(|| self.slots[sample.slot].sequence))
    }

    pub fn release(&mut self, sample: u64) -> Result<(), Stop> {
        let Sample { slot, connection, factory } = self.samples.remove(&sample).ok_or(Stop::Skipped)?;
        self.factories[factory].uses -= 1;
        self.let_go(slot);
        let it = &mut self.connections[connection];
        it.borrowed -= 1;
        if it.borrowed == 0 && !it.has_publisher && !it.has_subscriber {
            self.connections.end(connection);
        }
        Ok(())
    }
}
