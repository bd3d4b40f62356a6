//! The registrations (RFC 9176 sections 5 and 6).

use crate::index::{Index, Records};
use crate::kept::Tag;
use crate::query::Query;
use crate::record::{Draft, Record};
use crate::tables::Table;
use crate::Unhandled;
use std::collections::BTreeSet;
use std::rc::Rc;

/// The most registrations.
const MOST: usize = 4_096;

/// The most octets that they may weigh together.
const MOST_TEXT: u64 = 1_048_576;

/// The registrations, and by what they are found.
#[derive(Default)]
pub struct Directory {
    /// By their numbers.
    records: Records,
    /// By the name of the endpoint.
    names: Table<Box<[u8]>, Rc<Record>>,
    /// When each lapses, with its number.
    leases: BTreeSet<(u64, u64)>,
    /// By the values of attributes.
    index: Index,
    /// What they weigh together.
    text: u64,
    /// How many changes were accepted.
    entries: u64,
    /// The last number that was given.
    last_number: u64,
    /// How many have lapsed since the last change.
    lapsed: u64,
}

/// What a registration changed.
pub struct Registered {
    /// The registration that it replaced.
    pub old: Option<Rc<Record>>,
    /// The registration.
    pub new: Rc<Record>,
}

impl Directory {
    /// How many there are.
    pub fn len(&self) -> usize {
        self.records.len()
    }

    /// How many changes were accepted.
    pub fn entries(&self) -> u64 {
        self.entries
    }

    /// The entity tag of listings now.
    pub fn tag(&self) -> Tag {
        let [_, _, a, b, c, d, e, f] = self.entries.to_be_bytes();
        let [.., g, h] = self.lapsed.to_be_bytes();
        [a, b, c, d, e, f, g, h]
    }

    /// Puts a registration into all tables.
    fn put(&mut self, record: &Rc<Record>) {
        self.text += record.weight;
        self.leases.insert((record.lapse, record.number));
        self.names.insert(record.endpoint().into(), record.clone());
        self.index.put(record);
        self.records.insert(record.number, record.clone());
    }

    /// Takes a registration out of all tables.
    fn take(&mut self, record: &Record) {
        self.text -= record.weight;
        self.leases.remove(&(record.lapse, record.number));
        self.names.remove(record.endpoint());
        self.index.take(record);
        self.records.remove(&record.number);
    }

    /// Takes out the next registration that has lapsed at a moment.
    pub fn lapse(&mut self, now: u64) -> Option<Rc<Record>> {
        let &(lapse, number) = self.leases.first()?;
        if lapse > now {
            return None;
        }
        let record = self.records.get(&number)?.clone();
        self.take(&record);
        self.lapsed += 1;
        Some(record)
    }

    /// Makes the registration of a draft, in place of the one under its name.
    pub fn register(&mut self, now: u64, draft: Draft) -> Result<Registered, Unhandled> {
        let old = self.names.get(draft.endpoint()).cloned();
        let number = old.as_ref().map_or(self.last_number + 1, |old| old.number);
        let new = Rc::new(Record::of(draft, number, now));
        if old.is_none() && self.records.len() >= MOST {
            return Err(Unhandled("registrations"));
        }
        if self.text - old.as_ref().map_or(0, |old| old.weight) + new.weight > MOST_TEXT {
            return Err(Unhandled("text"));
        }
        if let Some(old) = &old {
            self.take(old);
        }
        self.put(&new);
        self.last_number = self.last_number.max(number);
        self.entries += 1;
        self.lapsed = 0;
        Ok(Registered { old, new })
    }

    /// Appends the lines of a query, each with a comma before it.
    pub fn list(&self, query: &Query, text: &mut Vec<u8>) {
        let put = |record: &Record| {
            for line in record.lines(query) {
                text.extend_from_slice(line);
            }
        };
        match query
            .criteria()
            .iter()
            .min_by_key(|criterion| self.index.count(criterion))
        {
            Some(criterion) => self.index.each(criterion, put),
            None => self.records.values().map(Rc::as_ref).for_each(put),
        }
    }
}
