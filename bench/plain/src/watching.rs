//! Watched queries and their observers (RFC 7641).

use crate::kept::Tag;
use crate::message::Token;
use crate::peer::Peer;
use crate::query::Query;
use crate::record::Record;
use crate::request::Block;
use crate::Unhandled;
use std::rc::Rc;

/// The most observers, and the most queries that they watch.
const MOST: usize = 1_024;
const MOST_QUERIES: usize = 256;

/// The least wait for an acknowledgement in milliseconds, how many waits there are, and how often
/// a notification is sent again.
const LEAST_WAIT: u64 = 2_000;
const WAITS: u64 = 1_001;
const MOST_AGAIN: u8 = 4;

/// A query that is watched.
pub struct Watch {
    /// The query.
    pub query: Query,
    /// How many observers it has.
    observers: usize,
    /// How many changes its listing had.
    pub changes: u64,
    /// The listing since the last of them, if it was formed.
    pub body: Option<Rc<[u8]>>,
}

/// A notification that waits for its acknowledgement.
pub struct Flight {
    /// The octets of the notification.
    pub octets: Box<[u8]>,
    /// When it was sent last.
    sent: u64,
    /// How long it waits from then on, in milliseconds.
    wait: u64,
    /// How often it was sent again.
    again: u8,
}

/// What is due of a notification that waits.
#[derive(PartialEq, Eq)]
pub enum Due {
    Nothing,
    Again,
    Over,
}

impl Flight {
    /// A notification that is sent for the first time.
    pub fn start(octets: Box<[u8]>, now: u64, word: u32) -> Flight {
        let wait = LEAST_WAIT + u64::from(word) % WAITS;
        Flight {
            octets,
            sent: now,
            wait,
            again: 0,
        }
    }

    /// Time passes.
    fn tick(&mut self, now: u64) -> Due {
        if now - self.sent < self.wait {
            return Due::Nothing;
        }
        if self.again == MOST_AGAIN {
            return Due::Over;
        }
        self.sent = now;
        self.wait *= 2;
        self.again += 1;
        Due::Again
    }
}

/// An observer.
pub struct Observer {
    /// Where its notifications go.
    pub peer: Peer,
    /// The token that they have.
    pub token: Token,
    /// The key of its request.
    pub key: Rc<[u8]>,
    /// The block that it is given.
    pub block: Block,
    /// The listing that it was given last.
    pub last: Rc<[u8]>,
    /// The place of its query.
    pub place: usize,
    /// How many changes the listing had when it was last looked at for the observer.
    pub seen: u64,
    /// The notification that waits for its acknowledgement.
    pub flight: Option<Flight>,
}

/// Who asks to observe, and what is given to it.
pub struct Joining {
    pub peer: Peer,
    pub token: Token,
    pub key: Rc<[u8]>,
    pub block: Block,
    pub body: Rc<[u8]>,
}

/// A listing under its tag, and the Observe value that it is given with.
#[derive(Clone, Copy)]
pub struct Given {
    pub tag: Tag,
    pub observe: Option<u32>,
}

/// The watched queries and their observers.
#[derive(Default)]
pub struct Watching {
    /// The queries by their places.
    watches: Vec<Option<Watch>>,
    /// The observers in the order in which they joined.
    pub observers: Vec<Observer>,
}

/// Whether two states of a registration give the same lines to a query.
fn is_same_part(query: &Query, old: Option<&Record>, new: Option<&Record>) -> bool {
    match (old, new) {
        (Some(old), Some(new)) => old.lines(query).eq(new.lines(query)),
        (Some(record), None) | (None, Some(record)) => record.lines(query).next().is_none(),
        (None, None) => true,
    }
}

impl Watching {
    /// The watched query at a place.
    pub fn watch(&mut self, place: usize) -> Option<&mut Watch> {
        self.watches.get_mut(place)?.as_mut()
    }

    /// A registration changes: the listings in which it changes a line are no longer known.
    pub fn touch(&mut self, old: Option<&Record>, new: Option<&Record>) {
        for watch in self.watches.iter_mut().flatten() {
            if !is_same_part(&watch.query, old, new) {
                watch.changes += 1;
                watch.body = None;
            }
        }
    }

    /// One observer fewer at a place.
    fn leave(&mut self, place: usize) {
        if let Some(watch) = self.watch(place) {
            watch.observers -= 1;
            if watch.observers == 0 {
                self.watches[place] = None;
            }
        }
    }

    /// One observer more of a query; its place and the changes so far.
    fn enter(&mut self, query: Query) -> Result<(usize, u64), Unhandled> {
        let mut places = self.watches.iter_mut().enumerate();
        let known = places.find_map(|(place, watch)| match watch {
            Some(watch) if watch.query == query => Some((place, watch)),
            _ => None,
        });
        if let Some((place, watch)) = known {
            watch.observers += 1;
            return Ok((place, watch.changes));
        }
        let watch = Watch {
            query,
            observers: 1,
            changes: 0,
            body: None,
        };
        if let Some(place) = self.watches.iter().position(Option::is_none) {
            self.watches[place] = Some(watch);
            return Ok((place, 0));
        }
        if self.watches.len() == MOST_QUERIES {
            return Err(Unhandled("watched queries"));
        }
        self.watches.push(Some(watch));
        Ok((self.watches.len() - 1, 0))
    }

    /// Takes out the observer with an index.
    pub fn take(&mut self, index: usize) {
        let gone = self.observers.remove(index);
        self.leave(gone.place);
    }

    /// An observer joins, in place of the one with its peer and token.
    pub fn join(&mut self, query: Query, joining: Joining) -> Result<(), Unhandled> {
        let Joining {
            peer,
            token,
            key,
            block,
            body,
        } = joining;
        let is_same = |other: &Observer| other.token == token && other.peer == peer;
        if let Some(index) = self.observers.iter().position(is_same) {
            self.take(index);
        }
        if self.observers.len() == MOST {
            return Err(Unhandled("observers"));
        }
        let (place, seen) = self.enter(query)?;
        let observer = Observer {
            peer,
            token,
            key,
            block,
            last: body,
            place,
            seen,
            flight: None,
        };
        self.observers.push(observer);
        Ok(())
    }

    /// What is due of the notification of the observer with an index.
    pub fn due(&mut self, index: usize, now: u64) -> Due {
        match &mut self.observers[index].flight {
            Some(flight) => flight.tick(now),
            None => Due::Nothing,
        }
    }

    /// Whether the listing of an observer changed since it was last looked at.
    pub fn is_due(&self, observer: &Observer) -> bool {
        let watch = self.watches[observer.place].as_ref();
        watch.is_some_and(|watch| watch.changes != observer.seen)
    }

    /// The peers for whose acknowledgement a notification waits.
    pub fn awaited(&self) -> Vec<Peer> {
        let in_flight = self
            .observers
            .iter()
            .filter(|observer| observer.flight.is_some());
        in_flight.map(|observer| observer.peer).collect()
    }
}
