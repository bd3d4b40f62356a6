//! Registrations as they are kept: one text each, with the finished lines of its links in it.

use crate::links::put_links;
use crate::peer::Peer;
use crate::query::{Criterion, Own, Query};
use crate::request::Registration;
use crate::Unhandled;
use std::iter;
use std::ops::Range;

/// The resource type of endpoints (RFC 9176 section 6.4).
pub const ENDPOINT_TYPE: &[u8] = b"core.rd-ep";

/// Where something stands in the text of a record, or among its values.
#[derive(Clone, Copy, Debug)]
pub struct Span {
    start: u32,
    end: u32,
}

impl Span {
    /// From one place to another.
    pub fn of(start: usize, end: usize) -> Span {
        Span {
            start: start as u32,
            end: end as u32,
        }
    }

    /// How many it spans.
    pub fn len(&self) -> usize {
        (self.end - self.start) as usize
    }

    /// As a range.
    fn range(&self) -> Range<usize> {
        self.start as usize..self.end as usize
    }
}

/// A value that an attribute of a link has; a list has several.
#[derive(Clone, Copy, Debug)]
pub struct Value {
    /// The name of the attribute.
    pub name: Span,
    /// The value.
    pub value: Span,
    /// The print of both.
    pub print: u32,
}

/// A link.
#[derive(Clone, Copy, Debug)]
pub struct Link {
    /// Its line in listings, with a comma before it.
    pub line: Span,
    /// Its values, among those of the record.
    pub values: Span,
}

/// Room in which drafts are made.
#[derive(Default)]
pub struct Room {
    /// The text.
    pub text: Vec<u8>,
    /// The links.
    pub links: Vec<Link>,
    /// The values of all links.
    pub values: Vec<Value>,
}

impl Room {
    /// Empties it.
    fn clear(&mut self) {
        self.text.clear();
        self.links.clear();
        self.values.clear();
    }
}

/// A registration before it has a number and a lapse.
#[derive(Debug)]
pub struct Draft {
    /// Its base, the name of its endpoint, and the lines of its links with a comma before each.
    text: Box<[u8]>,
    /// Its base in the text.
    base: Span,
    /// The name of its endpoint in the text.
    endpoint: Span,
    /// Its links.
    links: Box<[Link]>,
    /// The values of all its links.
    values: Box<[Value]>,
    /// Its lifetime in seconds.
    lifetime: u32,
}

impl Draft {
    /// The draft of a registration that a peer asks for.
    pub fn build(
        room: &mut Room,
        peer: Peer,
        registration: &Registration<'_>,
    ) -> Result<Draft, Unhandled> {
        room.clear();
        peer.put_base(&mut room.text);
        let base = Span::of(0, room.text.len());
        room.text.extend_from_slice(registration.endpoint);
        let endpoint = Span::of(base.len(), room.text.len());
        put_links(room, base, registration.links)?;
        Ok(Draft {
            text: room.text.as_slice().into(),
            base,
            endpoint,
            links: room.links.as_slice().into(),
            values: room.values.as_slice().into(),
            lifetime: registration.lifetime,
        })
    }

    /// What stands at a place of its text.
    fn at(&self, span: Span) -> &[u8] {
        &self.text[span.range()]
    }

    /// The name of its endpoint.
    pub fn endpoint(&self) -> &[u8] {
        self.at(self.endpoint)
    }

    /// How many octets the lines have that it gives, each with one more for a comma.
    pub fn weight(&self, number: u64) -> u64 {
        let digits = 1 + number.checked_ilog10().unwrap_or(0) as usize;
        let endpoint = "</rd/>;base=\"\";ep=\"\";rt=\"\",".len()
            + digits
            + quoted_length(self.at(self.base))
            + quoted_length(self.endpoint())
            + ENDPOINT_TYPE.len();
        let links: usize = self.links.iter().map(|link| link.line.len()).sum();
        (endpoint + links) as u64
    }
}

/// How many octets a text has in quotes, the quotes apart.
fn quoted_length(text: &[u8]) -> usize {
    text.len()
        + text
            .iter()
            .filter(|octet| matches!(octet, b'"' | b'\\'))
            .count()
}

/// A registration.
#[derive(Debug)]
pub struct Record {
    /// Its number.
    pub number: u64,
    /// The moment at which its lifetime ends.
    pub lapse: u64,
    /// What it weighs.
    pub weight: u64,
    /// What it was made of.
    draft: Draft,
}

impl Record {
    /// The registration that a draft becomes.
    pub fn of(draft: Draft, number: u64, now: u64) -> Record {
        let lapse = now + 1_000 * u64::from(draft.lifetime);
        Record {
            number,
            lapse,
            weight: draft.weight(number),
            draft,
        }
    }

    /// The name of its endpoint.
    pub fn endpoint(&self) -> &[u8] {
        self.draft.endpoint()
    }

    /// Its base.
    fn base(&self) -> &[u8] {
        self.draft.at(self.draft.base)
    }

    /// The names and values that tell it from others.
    pub fn names(&self) -> [(&[u8], &[u8]); 2] {
        [(b"base", self.base()), (b"ep", self.endpoint())]
    }

    /// The names and values that others have too: its type, and those of its links.
    pub fn attributes(&self) -> impl Iterator<Item = (&[u8], &[u8])> {
        let own: (&[u8], &[u8]) = (b"rt", ENDPOINT_TYPE);
        let draft = &self.draft;
        let of_links = draft
            .values
            .iter()
            .map(|pair| (draft.at(pair.name), draft.at(pair.value)));
        iter::once(own).chain(of_links)
    }

    /// Whether a link by itself meets a criterion (RFC 6690 section 4.1).
    fn link_meets(&self, link: &Link, criterion: &Criterion) -> bool {
        self.draft.values[link.values.range()]
            .iter()
            .any(|pair| criterion.may_match(pair.print) && self.value_meets(pair, criterion))
    }

    /// Whether a value of a link meets a criterion. It is asked of few, since their prints tell
    /// most apart, and kept out of the loops over them.
    #[inline(never)]
    fn value_meets(&self, pair: &Value, criterion: &Criterion) -> bool {
        self.draft.at(pair.name) == criterion.name() && criterion.matches(self.draft.at(pair.value))
    }

    /// Whether the endpoint by itself meets a criterion (RFC 9176 section 6.2). It too is asked of
    /// few.
    #[inline(never)]
    fn endpoint_meets(&self, criterion: &Criterion) -> bool {
        match criterion.own() {
            Own::All => true,
            Own::None => false,
            Own::Base => criterion.matches(self.base()),
            Own::Endpoint => criterion.matches(self.endpoint()),
        }
    }

    /// The lines of its links that a query lists, each with a comma before it.
    pub fn lines<'a>(&'a self, query: &'a Query) -> impl Iterator<Item = &'a [u8]> {
        let is_listed = |link: &&Link| {
            query.criteria().iter().all(|criterion| {
                self.link_meets(link, criterion)
                    || criterion.own() != Own::None && self.endpoint_meets(criterion)
            })
        };
        self.draft
            .links
            .iter()
            .filter(is_listed)
            .map(|link| self.draft.at(link.line))
    }
}
