//! The directory with its one worker: what each line of a trace makes it do.

use crate::directory::{Directory, Registered};
use crate::exchanges::{Admitted, Exchanges};
use crate::kept::{Answer, Kept, Tag};
use crate::message::{codes, options, Kind, Message, Token, Writer};
use crate::outbox::Outbox;
use crate::peer::Peer;
use crate::query::{query_of, Query};
use crate::record::{Draft, Room};
use crate::request::{request, Block, Lookup, Registration, Request};
use crate::trace::{Digits, Line};
use crate::watching::{Due, Flight, Given, Joining, Watching};
use crate::Unhandled;
use std::fmt;
use std::rc::Rc;

/// The most notifications of one tick.
const MOST_NOTICES: usize = 64;

/// How many Message IDs the worker draws before it begins again.
const MIDS: u64 = 4_096;

/// The values of Observe begin again behind these.
const OBSERVE_VALUES: u64 = 1 << 24;

/// A registration that was admitted.
struct Job {
    /// Who sent it.
    peer: Peer,
    /// Its Message ID.
    mid: u16,
    /// Its token.
    token: Token,
    /// The sequence number of its exchange.
    sequence: u64,
    /// What it registers.
    draft: Draft,
}

/// The directory with its worker.
#[derive(Default)]
pub struct Machine {
    /// The greatest moment that was handed in.
    moment: u64,
    directory: Directory,
    exchanges: Exchanges,
    kept: Kept,
    watching: Watching,
    /// How many Observe values were given.
    observed: u64,
    /// How many Message IDs were drawn.
    drawn: u64,
    /// The job that the worker holds.
    job: Option<Job>,
    /// What the last step sent.
    sent: Outbox,
    /// Room in which drafts are made.
    room: Room,
    /// Room in which listings are formed.
    room_for_lines: Vec<u8>,
}

/// The line that ends an output.
pub struct End {
    entries: u64,
    registrations: usize,
    observers: usize,
}

impl fmt::Display for End {
    fn fmt(&self, f: &mut fmt::Formatter<'_>) -> fmt::Result {
        write!(
            f,
            "end {} {} {}",
            self.entries, self.registrations, self.observers
        )
    }
}

/// The block of a body that is asked for, and whether more follows it.
fn part_of(body: &[u8], asked: Block) -> Result<(&[u8], bool), Unhandled> {
    let start = asked.number * asked.size();
    if start > 0 && start >= body.len() {
        return Err(Unhandled("block"));
    }
    let rest = &body[start..];
    let length = rest.len().min(asked.size());
    Ok((&rest[..length], length < rest.len()))
}

/// The listing of a query now.
fn listing(directory: &Directory, query: &Query, room: &mut Vec<u8>) -> Rc<[u8]> {
    room.clear();
    directory.list(query, room);
    match room.as_slice() {
        [_comma, lines @ ..] => lines.into(),
        [] => Rc::new([]),
    }
}

/// Ends an answer or a notification with a block of a listing (RFC 7959 section 2.4).
fn put_listing(
    writer: Writer<'_>,
    given: Given,
    asked: Option<Block>,
    (part, has_more): (&[u8], bool),
) {
    let mut writer = writer.option(options::ETAG, &given.tag);
    if let Some(observe) = given.observe {
        writer = writer.uint(options::OBSERVE, observe);
    }
    writer = writer.uint(options::CONTENT_FORMAT, 40);
    if asked.is_some() || has_more {
        let Block { number, exponent } = asked.unwrap_or(Block::FIRST);
        let value = (number as u32) << 4 | u32::from(has_more) << 3 | u32::from(exponent);
        writer = writer.uint(options::BLOCK2, value);
    }
    writer.payload(part);
}

impl Machine {
    /// The directory in which nothing was done.
    pub fn new() -> Machine {
        Machine::default()
    }

    /// What the last step sent.
    pub fn sent(&self) -> &Outbox {
        &self.sent
    }

    /// The line that ends the output.
    pub fn end(&self) -> End {
        End {
            entries: self.directory.entries(),
            registrations: self.directory.len(),
            observers: self.watching.observers.len(),
        }
    }

    /// Does what a line says.
    pub fn perform(&mut self, line: Line<'_>) -> Result<(), Unhandled> {
        self.sent.clear();
        match line {
            Line::Come {
                moment,
                peer,
                datagram,
            } => self.come(moment, peer, datagram),
            Line::Go { moment } => self.go(moment),
            Line::Tick { moment, word } => {
                self.tick(moment, word);
                Ok(())
            }
        }
    }

    /// Time passes, and what lapses goes.
    fn pass(&mut self, moment: u64) {
        self.moment = self.moment.max(moment);
        while let Some(gone) = self.directory.lapse(self.moment) {
            self.watching.touch(Some(&gone), None);
        }
    }

    /// A datagram comes.
    fn come(&mut self, moment: u64, peer: Peer, datagram: &[u8]) -> Result<(), Unhandled> {
        if self.job.is_some() {
            return Err(Unhandled("busy"));
        }
        self.pass(moment);
        let message = Message::read(datagram)?;
        match request(&message)? {
            Request::Register(asked) => self.admit(peer, &message, &asked),
            Request::Lookup(asked) => self.look(peer, &message, &asked),
        }
    }

    /// A registration comes.
    fn admit(
        &mut self,
        peer: Peer,
        message: &Message<'_>,
        asked: &Registration<'_>,
    ) -> Result<(), Unhandled> {
        match self.exchanges.admit(self.moment, peer.key(message.mid))? {
            Admitted::New(sequence) => {
                let draft = Draft::build(&mut self.room, peer, asked)?;
                let Message { mid, token, .. } = *message;
                self.job = Some(Job {
                    peer,
                    mid,
                    token,
                    sequence,
                    draft,
                });
            }
            Admitted::Before(Some(reply)) => {
                self.sent
                    .push(peer, |octets| octets.extend_from_slice(reply));
            }
            Admitted::Before(None) => {}
        }
        Ok(())
    }

    /// The worker does its job.
    fn go(&mut self, moment: u64) -> Result<(), Unhandled> {
        let Some(Job {
            peer,
            mid,
            token,
            sequence,
            draft,
        }) = self.job.take()
        else {
            return Ok(());
        };
        self.pass(moment);
        let Registered { old, new } = self.directory.register(self.moment, draft)?;
        self.watching.touch(old.as_deref(), Some(&new));
        let digits = Digits::of(new.number);
        let reply = self.sent.push(peer, |octets| {
            Writer::start(octets, Kind::Ack, codes::CREATED, mid, token.octets())
                .option(options::LOCATION_PATH, b"rd")
                .option(options::LOCATION_PATH, digits.octets());
        });
        self.exchanges.settle(sequence, reply);
        Ok(())
    }

    /// A lookup comes.
    fn look(
        &mut self,
        peer: Peer,
        message: &Message<'_>,
        asked: &Lookup<'_>,
    ) -> Result<(), Unhandled> {
        let (query, key) = query_of(asked)?;
        if asked.block.is_some_and(|block| block.number > 0) {
            return self.look_further(peer, message, asked, &query, key);
        }
        if asked.observes {
            return self.observe(peer, message, asked, query, key);
        }
        Err(Unhandled("lookup"))
    }

    /// A lookup comes that asks for a further block: it is one of the listing that was kept, or
    /// of the listing now.
    fn look_further(
        &mut self,
        peer: Peer,
        message: &Message<'_>,
        asked: &Lookup<'_>,
        query: &Query,
        key: Rc<[u8]>,
    ) -> Result<(), Unhandled> {
        let kept = self.kept.read(self.moment, peer, &key);
        let (body, tag) = match kept.map(|answer| (answer.body.clone(), answer.tag)) {
            Some(kept) => kept,
            None => {
                let body = listing(&self.directory, query, &mut self.room_for_lines);
                let tag = self.directory.tag();
                self.keep(peer, key, &body, tag);
                (body, tag)
            }
        };
        self.answer(peer, message, asked, Given { tag, observe: None }, &body)
    }

    /// A lookup comes that begins to observe.
    fn observe(
        &mut self,
        peer: Peer,
        message: &Message<'_>,
        asked: &Lookup<'_>,
        query: Query,
        key: Rc<[u8]>,
    ) -> Result<(), Unhandled> {
        let body = listing(&self.directory, &query, &mut self.room_for_lines);
        let tag = self.directory.tag();
        let block = asked.block.unwrap_or(Block::FIRST);
        if body.len() > block.size() {
            self.keep(peer, key.clone(), &body, tag);
        }
        let joining = Joining {
            peer,
            token: message.token,
            key,
            block,
            body: body.clone(),
        };
        self.watching.join(query, joining)?;
        let observe = Some(self.next_observe());
        self.answer(peer, message, asked, Given { tag, observe }, &body)
    }

    /// A listing is kept for its further blocks.
    fn keep(&mut self, peer: Peer, key: Rc<[u8]>, body: &Rc<[u8]>, tag: Tag) {
        let body = body.clone();
        let answer = Answer {
            peer,
            key,
            body,
            tag,
        };
        self.kept.keep(self.moment, answer);
    }

    /// The next value of Observe.
    fn next_observe(&mut self) -> u32 {
        self.observed += 1;
        (self.observed % OBSERVE_VALUES) as u32
    }

    /// A lookup is answered with the block of a listing that it asks for.
    fn answer(
        &mut self,
        peer: Peer,
        message: &Message<'_>,
        asked: &Lookup<'_>,
        given: Given,
        body: &[u8],
    ) -> Result<(), Unhandled> {
        let part = part_of(body, asked.block.unwrap_or(Block::FIRST))?;
        self.sent.push(peer, |octets| {
            let token = message.token.octets();
            let writer = Writer::start(octets, Kind::Ack, codes::CONTENT, message.mid, token);
            put_listing(writer, given, asked.block, part);
        });
        Ok(())
    }

    /// Lets time pass: sends notifications again, tells observers whose listing changed, and
    /// forgets what is old.
    fn tick(&mut self, moment: u64, word: u32) {
        self.pass(moment);
        self.notifications_again();
        self.notifications(word);
        self.exchanges.age(self.moment);
    }

    /// Notifications whose wait has ended are sent again; after the last time their observer goes.
    fn notifications_again(&mut self) {
        let mut index = 0;
        while index < self.watching.observers.len() {
            let due = self.watching.due(index, self.moment);
            if due == Due::Over {
                self.watching.take(index);
                continue;
            }
            let observer = &self.watching.observers[index];
            if let (Due::Again, Some(flight)) = (due, &observer.flight) {
                let notification = &flight.octets;
                self.sent
                    .push(observer.peer, |octets| octets.extend_from_slice(notification));
            }
            index += 1;
        }
    }

    /// Observers whose listing changed are told, if no other notification waits for their peer.
    fn notifications(&mut self, word: u32) {
        let mut awaited = self.watching.awaited();
        let mut left = MOST_NOTICES;
        for index in 0..self.watching.observers.len() {
            if left == 0 {
                return;
            }
            let observer = &self.watching.observers[index];
            if !self.watching.is_due(observer) || awaited.contains(&observer.peer) {
                continue;
            }
            if self.notification(index, word) {
                awaited.push(self.watching.observers[index].peer);
                left -= 1;
            }
        }
    }

    /// The listing of the query at a place, which is formed once for all who observe it, and how
    /// many changes it had.
    fn watched_listing(&mut self, place: usize) -> Option<(Rc<[u8]>, u64)> {
        let watch = self.watching.watch(place)?;
        let body = watch
            .body
            .get_or_insert_with(|| listing(&self.directory, &watch.query, &mut self.room_for_lines))
            .clone();
        Some((body, watch.changes))
    }

    /// An observer is told of its listing, if that is another than it was given last.
    fn notification(&mut self, index: usize, word: u32) -> bool {
        let place = self.watching.observers[index].place;
        let Some((body, changes)) = self.watched_listing(place) else {
            return false;
        };
        let observer = &mut self.watching.observers[index];
        observer.seen = changes;
        if observer.last == body {
            return false;
        }
        observer.last = body.clone();
        let (peer, token, key) = (observer.peer, observer.token, observer.key.clone());
        let first = Block {
            number: 0,
            ..observer.block
        };
        let tag = self.directory.tag();
        let (part, rest) = body.split_at(body.len().min(first.size()));
        let has_more = !rest.is_empty();
        if has_more {
            self.keep(peer, key, &body, tag);
        }
        let given = Given {
            tag,
            observe: Some(self.next_observe()),
        };
        let mid = (self.drawn % MIDS) as u16;
        self.drawn += 1;
        let notification = self.sent.push(peer, |octets| {
            let writer = Writer::start(octets, Kind::Con, codes::CONTENT, mid, token.octets());
            put_listing(writer, given, has_more.then_some(first), (part, has_more));
        });
        let flight = Flight::start(notification.into(), self.moment, word);
        self.watching.observers[index].flight = Some(flight);
        true
    }
}
