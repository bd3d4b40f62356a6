//! Queries of lookups (RFC 9176 section 6.2, RFC 6690 section 4.1).

use crate::message::codes;
use crate::record::ENDPOINT_TYPE;
use crate::request::Lookup;
use crate::tables::print_of;
use crate::Unhandled;
use std::rc::Rc;

/// What stands for /rd-lookup/res in the key of a request.
const RESOURCES: u8 = 4;

/// Which of its own attributes an endpoint has under the name of a criterion.
#[derive(Clone, Copy, Debug, PartialEq, Eq)]
pub enum Own {
    /// None that matches.
    None,
    /// Its resource type, which matches.
    All,
    /// Its base.
    Base,
    /// Its name.
    Endpoint,
}

/// A criterion: the name of an attribute, and what its value has to be or to begin with.
#[derive(Debug, PartialEq, Eq)]
pub struct Criterion {
    name: Box<[u8]>,
    text: Box<[u8]>,
    is_front: bool,
    own: Own,
    print: u32,
}

/// Whether a value is a text, or begins with it.
fn fits(value: &[u8], text: &[u8], is_front: bool) -> bool {
    if is_front {
        value.starts_with(text)
    } else {
        value == text
    }
}

impl Criterion {
    /// The criterion that a query option says.
    fn of(name: &str, pattern: &str) -> Criterion {
        let (text, is_front) = match pattern.strip_suffix('*') {
            Some(front) => (front.as_bytes(), true),
            None => (pattern.as_bytes(), false),
        };
        let own = match name {
            "base" => Own::Base,
            "ep" => Own::Endpoint,
            "rt" if fits(ENDPOINT_TYPE, text, is_front) => Own::All,
            _ => Own::None,
        };
        let name = name.as_bytes();
        let print = print_of(name, text);
        Criterion {
            name: name.into(),
            text: text.into(),
            is_front,
            own,
            print,
        }
    }

    /// The name of the attribute.
    pub fn name(&self) -> &[u8] {
        &self.name
    }

    /// What a value has to be or to begin with.
    pub fn text(&self) -> &[u8] {
        &self.text
    }

    /// Whether a value may go on behind the text.
    pub fn is_front(&self) -> bool {
        self.is_front
    }

    /// Which of its own attributes an endpoint has under the name.
    pub fn own(&self) -> Own {
        self.own
    }

    /// Whether a value under a name may match, by the print of both.
    pub fn may_match(&self, print: u32) -> bool {
        self.is_front || self.print == print
    }

    /// Whether a value matches.
    pub fn matches(&self, value: &[u8]) -> bool {
        fits(value, &self.text, self.is_front)
    }
}

/// A lookup of resources by all of its criteria.
#[derive(Debug, PartialEq, Eq)]
pub struct Query {
    criteria: Box<[Criterion]>,
}

impl Query {
    /// Its criteria.
    pub fn criteria(&self) -> &[Criterion] {
        &self.criteria
    }
}

/// The query of a lookup, and the key of its request.
pub fn query_of(lookup: &Lookup<'_>) -> Result<(Query, Rc<[u8]>), Unhandled> {
    let mut criteria = Vec::new();
    let mut key = vec![codes::GET, RESOURCES];
    lookup.queries(|name, value| {
        criteria.push(Criterion::of(name, value));
        for text in [name, value] {
            key.push(text.len() as u8);
            key.extend_from_slice(text.as_bytes());
        }
        Ok(())
    })?;
    Ok((
        Query {
            criteria: criteria.into(),
        },
        key.into(),
    ))
}
