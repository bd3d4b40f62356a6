//! What requests ask for (RFC 7252 section 5, RFC 9176 sections 5 and 6).

use crate::message::{codes, options, uint, Message, Options};
use crate::Unhandled;
use std::str;

/// The format of link documents (RFC 7252 section 12.3).
const LINK_FORMAT: u32 = 40;

/// A block of a body (RFC 7959 section 2.2).
#[derive(Clone, Copy)]
pub struct Block {
    /// Its number.
    pub number: usize,
    /// The exponent of its size, above 16 octets.
    pub exponent: u8,
}

impl Block {
    /// The first block, of 1,024 octets.
    pub const FIRST: Block = Block {
        number: 0,
        exponent: 6,
    };

    /// The block that the value of an option is.
    fn of(value: &[u8]) -> Result<Block, Unhandled> {
        let value = uint(value);
        let exponent = (value & 7) as u8;
        if exponent == 7 {
            return Err(Unhandled("block"));
        }
        Ok(Block {
            number: (value >> 4) as usize,
            exponent,
        })
    }

    /// How many octets it has at most.
    pub fn size(&self) -> usize {
        16 << self.exponent
    }
}

/// A registration as it is asked for.
pub struct Registration<'a> {
    /// The name of the endpoint.
    pub endpoint: &'a [u8],
    /// Its lifetime, in seconds.
    pub lifetime: u32,
    /// The document of its links.
    pub links: &'a [u8],
}

/// A lookup of resources.
pub struct Lookup<'a> {
    /// Whether it begins to observe.
    pub observes: bool,
    /// The block that it asks for, if it names one.
    pub block: Option<Block>,
    /// Its options from the first Uri-Query on.
    queries: Option<Options<'a>>,
}

impl<'a> Lookup<'a> {
    /// Gives its queries, each as its name and its value, one after the other.
    pub fn queries(
        &self,
        mut take: impl FnMut(&'a str, &'a str) -> Result<(), Unhandled>,
    ) -> Result<(), Unhandled> {
        each_query(self.queries, |name, value| match name {
            "" | "href" | "anchor" | "page" | "count" => Err(Unhandled("criterion")),
            _ => take(name, value),
        })
    }
}

/// A request.
pub enum Request<'a> {
    /// POST to /rd.
    Register(Registration<'a>),
    /// GET of /rd-lookup/res.
    Lookup(Lookup<'a>),
}

/// Gives each Uri-Query of options that begin with one, as its name and its value.
fn each_query<'a>(
    options: Option<Options<'a>>,
    mut take: impl FnMut(&'a str, &'a str) -> Result<(), Unhandled>,
) -> Result<(), Unhandled> {
    let Some(mut left) = options else {
        return Ok(());
    };
    while let Some((options::URI_QUERY, value)) = left.next()? {
        let text = str::from_utf8(value).map_err(|_| Unhandled("query"))?;
        let (name, value) = text.split_once('=').unwrap_or((text, ""));
        take(name, value)?;
    }
    Ok(())
}

/// The lifetime that a text says, in seconds.
fn lifetime_of(text: &str) -> Result<u32, Unhandled> {
    if text.len() > 10 || !text.bytes().all(|octet| octet.is_ascii_digit()) {
        return Err(Unhandled("lt"));
    }
    match text.parse() {
        Ok(lifetime @ 1..) => Ok(lifetime),
        _ => Err(Unhandled("lt")),
    }
}

/// The registration that queries and a payload ask for.
fn registration<'a>(
    queries: Option<Options<'a>>,
    links: &'a [u8],
) -> Result<Registration<'a>, Unhandled> {
    let (mut endpoint, mut lifetime) = (None, None);
    each_query(queries, |name, value| {
        if value.chars().any(char::is_control) {
            return Err(Unhandled("control"));
        }
        match name {
            "ep" if endpoint.is_none() && (1..=63).contains(&value.len()) => {
                endpoint = Some(value);
            }
            "lt" if lifetime.is_none() => lifetime = Some(lifetime_of(value)?),
            _ => return Err(Unhandled("parameter")),
        }
        Ok(())
    })?;
    Ok(Registration {
        endpoint: endpoint.ok_or(Unhandled("no ep"))?.as_bytes(),
        lifetime: lifetime.unwrap_or(90_000),
        links,
    })
}

/// Whether an option may stand with a value of this length, and again where it is repeated.
fn is_recognized(number: u16, is_repeated: bool, length: usize) -> bool {
    let (lengths, is_repeatable) = match number {
        options::URI_HOST => (1..=255, false),
        options::ETAG => (1..=8, true),
        options::OBSERVE => (0..=3, false),
        options::URI_PORT => (0..=2, false),
        options::LOCATION_PATH => (0..=255, true),
        options::URI_PATH => (0..=255, true),
        options::CONTENT_FORMAT => (0..=2, false),
        options::URI_QUERY => (0..=255, true),
        options::ACCEPT => (0..=2, false),
        options::BLOCK2 => (0..=3, false),
        options::SIZE2 => (0..=4, false),
        options::SIZE1 => (0..=4, false),
        _ => return false,
    };
    lengths.contains(&length) && (is_repeatable || !is_repeated)
}

/// The segments of a path, as far as any resource has them.
#[derive(Default)]
struct Path<'a> {
    /// How many there are.
    count: usize,
    /// The first two.
    segments: [&'a [u8]; 2],
}

impl<'a> Path<'a> {
    /// One more segment.
    fn put(&mut self, segment: &'a [u8]) {
        if let Some(place) = self.segments.get_mut(self.count) {
            *place = segment;
        }
        self.count += 1;
    }

    /// Whether it has these segments.
    fn is(&self, segments: &[&[u8]]) -> bool {
        self.segments.get(..self.count) == Some(segments)
    }
}

/// What is found in the options of a message.
#[derive(Default)]
struct Found<'a> {
    path: Path<'a>,
    queries: Option<Options<'a>>,
    observe: Option<u32>,
    block: Option<Block>,
    has_tag: bool,
    has_other_format: bool,
}

impl<'a> Found<'a> {
    /// One more option, which stands at the beginning of these.
    fn put(&mut self, number: u16, value: &'a [u8], options: Options<'a>) -> Result<(), Unhandled> {
        match number {
            options::URI_PATH => self.path.put(value),
            options::URI_QUERY => {
                self.queries.get_or_insert(options);
            }
            options::OBSERVE => self.observe = Some(uint(value)),
            options::BLOCK2 => self.block = Some(Block::of(value)?),
            options::ETAG => self.has_tag = true,
            options::ACCEPT | options::CONTENT_FORMAT => {
                self.has_other_format |= uint(value) != LINK_FORMAT;
            }
            _ => {}
        }
        Ok(())
    }
}

/// What a message asks for.
pub fn request<'a>(message: &Message<'a>) -> Result<Request<'a>, Unhandled> {
    let mut found = Found::default();
    let mut left = message.options;
    let mut before = 0;
    loop {
        let options = left;
        let Some((number, value)) = left.next()? else {
            break;
        };
        if is_recognized(number, number == before, value.len()) {
            found.put(number, value, options)?;
        } else if number % 2 == 1 {
            return Err(Unhandled("option"));
        }
        before = number;
    }
    if found.has_other_format {
        return Err(Unhandled("format"));
    }
    let payload = left.payload();
    if message.code == codes::POST && found.path.is(&[b"rd"]) {
        return Ok(Request::Register(registration(found.queries, payload)?));
    }
    if message.code == codes::GET && found.path.is(&[b"rd-lookup", b"res"]) && !found.has_tag {
        let observes = found.observe == Some(0);
        let Found { block, queries, .. } = found;
        return Ok(Request::Lookup(Lookup {
            observes,
            block,
            queries,
        }));
    }
    Err(Unhandled("request"))
}
