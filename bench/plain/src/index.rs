//! Which registrations carry which values of which attributes.

use crate::query::Criterion;
use crate::record::Record;
use std::collections::btree_map::Entry;
use std::collections::BTreeMap;
use std::ops::Bound;
use std::rc::Rc;

/// Registrations by their numbers.
pub type Records = BTreeMap<u64, Rc<Record>>;

/// The registrations that carry a value.
enum Carriers {
    /// One alone.
    One(Rc<Record>),
    /// Some.
    Many(Records),
}

impl Carriers {
    /// How many there are.
    fn len(&self) -> usize {
        match self {
            Carriers::One(_) => 1,
            Carriers::Many(records) => records.len(),
        }
    }

    /// One more.
    fn put(&mut self, record: &Rc<Record>) {
        match self {
            Carriers::One(one) => {
                let both = [one.clone(), record.clone()].map(|record| (record.number, record));
                *self = Carriers::Many(Records::from(both));
            }
            Carriers::Many(records) => {
                records.insert(record.number, record.clone());
            }
        }
    }

    /// One fewer; whether none is left.
    fn take(&mut self, number: u64) -> bool {
        match self {
            Carriers::One(one) => one.number == number,
            Carriers::Many(records) => {
                records.remove(&number);
                records.is_empty()
            }
        }
    }

    /// Gives each, in ascending number.
    fn each<'a>(&'a self, mut give: impl FnMut(&'a Rc<Record>)) {
        match self {
            Carriers::One(record) => give(record),
            Carriers::Many(records) => records.values().for_each(give),
        }
    }
}

/// The carriers of the values of a name.
type Values = BTreeMap<Box<[u8]>, Carriers>;

/// The carriers of the values of all names.
#[derive(Default)]
pub struct Index {
    names: BTreeMap<Box<[u8]>, Values>,
}

impl Index {
    /// Puts a registration among the carriers of a value. One that others rarely have is sought
    /// once, and most others are there.
    fn put_value(&mut self, name: &[u8], value: &[u8], record: &Rc<Record>, is_rare: bool) {
        let values = match self.names.get_mut(name) {
            Some(values) => values,
            None => self.names.entry(name.into()).or_default(),
        };
        if !is_rare {
            if let Some(carriers) = values.get_mut(value) {
                return carriers.put(record);
            }
        }
        match values.entry(value.into()) {
            Entry::Occupied(mut carriers) => carriers.get_mut().put(record),
            Entry::Vacant(place) => {
                place.insert(Carriers::One(record.clone()));
            }
        }
    }

    /// Puts a registration among the carriers of its values.
    pub fn put(&mut self, record: &Rc<Record>) {
        for (name, value) in record.names() {
            self.put_value(name, value, record, true);
        }
        for (name, value) in record.attributes() {
            self.put_value(name, value, record, false);
        }
    }

    /// Takes a registration from the carriers of its values.
    pub fn take(&mut self, record: &Record) {
        for (name, value) in record.names().into_iter().chain(record.attributes()) {
            let Some(values) = self.names.get_mut(name) else {
                continue;
            };
            if values
                .get_mut(value)
                .is_some_and(|carriers| carriers.take(record.number))
            {
                values.remove(value);
            }
            if values.is_empty() {
                self.names.remove(name);
            }
        }
    }

    /// The carriers of the values that meet a criterion.
    fn carriers<'a>(&'a self, criterion: &'a Criterion) -> impl Iterator<Item = &'a Carriers> {
        let text = criterion.text();
        let values = self.names.get(criterion.name());
        let from =
            values.map(|values| values.range::<[u8], _>((Bound::Included(text), Bound::Unbounded)));
        from.into_iter()
            .flatten()
            .take_while(|(value, _)| criterion.matches(value))
            .map(|(_, carriers)| carriers)
    }

    /// How many registrations carry a value that meets a criterion, those with several counted
    /// once for each.
    pub fn count(&self, criterion: &Criterion) -> usize {
        self.carriers(criterion).map(Carriers::len).sum()
    }

    /// Gives each registration that carries a value which meets a criterion, in ascending number.
    pub fn each(&self, criterion: &Criterion, mut give: impl FnMut(&Record)) {
        let mut carriers = self.carriers(criterion);
        match (carriers.next(), criterion.is_front()) {
            (None, _) => {}
            (Some(only), false) => only.each(|record| give(record)),
            (Some(first), true) => {
                let mut all = BTreeMap::new();
                for carriers in std::iter::once(first).chain(carriers) {
                    carriers.each(|record| {
                        all.insert(record.number, record);
                    });
                }
                all.values().for_each(|record| give(record));
            }
        }
    }
}
