//! Messages of CoAP (RFC 7252 section 3).

use crate::Unhandled;

/// Codes of messages (RFC 7252 section 12.1).
pub mod codes {
    pub const GET: u8 = 1;
    pub const POST: u8 = 2;
    pub const CREATED: u8 = 65;
    pub const CONTENT: u8 = 69;
}

/// Numbers of options (RFC 7252 section 5.10, RFC 7641 section 2, RFC 7959 section 2.1).
pub mod options {
    pub const URI_HOST: u16 = 3;
    pub const ETAG: u16 = 4;
    pub const OBSERVE: u16 = 6;
    pub const URI_PORT: u16 = 7;
    pub const LOCATION_PATH: u16 = 8;
    pub const URI_PATH: u16 = 11;
    pub const CONTENT_FORMAT: u16 = 12;
    pub const URI_QUERY: u16 = 15;
    pub const ACCEPT: u16 = 17;
    pub const BLOCK2: u16 = 23;
    pub const SIZE2: u16 = 28;
    pub const SIZE1: u16 = 60;
}

/// What precedes the payload.
const MARKER: u8 = 255;

/// The types of messages that are written.
#[derive(Clone, Copy)]
pub enum Kind {
    Con = 0,
    Ack = 2,
}

/// A token.
#[derive(Clone, Copy, Debug, PartialEq, Eq)]
pub struct Token {
    /// How many octets it has.
    length: u8,
    /// Its octets, and zeros.
    octets: [u8; 8],
}

impl Token {
    /// The token of these octets, at most eight.
    fn of(octets: &[u8]) -> Token {
        let mut token = Token {
            length: octets.len() as u8,
            octets: [0; 8],
        };
        token.octets[..octets.len()].copy_from_slice(octets);
        token
    }

    /// Its octets.
    pub fn octets(&self) -> &[u8] {
        &self.octets[..usize::from(self.length)]
    }
}

/// A confirmable request as it is read.
pub struct Message<'a> {
    /// Its code.
    pub code: u8,
    /// Its Message ID.
    pub mid: u16,
    /// Its token.
    pub token: Token,
    /// Its options, and the payload behind them.
    pub options: Options<'a>,
}

impl<'a> Message<'a> {
    /// Reads the header and the token of a datagram.
    pub fn read(datagram: &'a [u8]) -> Result<Message<'a>, Unhandled> {
        let [first, code, high, low, rest @ ..] = datagram else {
            return Err(Unhandled("short"));
        };
        let length = usize::from(first & 15);
        if first >> 4 != 4 || length > 8 {
            return Err(Unhandled("header"));
        }
        if !(1..32).contains(code) {
            return Err(Unhandled("no request"));
        }
        let (token, rest) = rest.split_at_checked(length).ok_or(FORMAT)?;
        Ok(Message {
            code: *code,
            mid: u16::from_be_bytes([*high, *low]),
            token: Token::of(token),
            options: Options { before: 0, rest },
        })
    }
}

/// A datagram is no message.
const FORMAT: Unhandled = Unhandled("format");

/// The options of a message from one on, and its payload.
#[derive(Clone, Copy)]
pub struct Options<'a> {
    /// The number of the option before.
    before: u16,
    /// The octets from there on.
    rest: &'a [u8],
}

impl<'a> Options<'a> {
    /// A difference or a length that is written in four bits and the octets behind them.
    fn extended(&mut self, bits: u8) -> Result<u16, Unhandled> {
        match (bits, self.rest) {
            (0..=12, _) => Ok(u16::from(bits)),
            (13, &[octet, ref rest @ ..]) => {
                self.rest = rest;
                Ok(13 + u16::from(octet))
            }
            (14, &[high, low, ref rest @ ..]) => {
                self.rest = rest;
                u16::from_be_bytes([high, low])
                    .checked_add(269)
                    .ok_or(FORMAT)
            }
            _ => Err(FORMAT),
        }
    }

    /// The next option: its number and its value. None at the end.
    pub fn next(&mut self) -> Result<Option<(u16, &'a [u8])>, Unhandled> {
        let [first, rest @ ..] = self.rest else {
            return Ok(None);
        };
        if *first == MARKER {
            return if rest.is_empty() {
                Err(FORMAT)
            } else {
                Ok(None)
            };
        }
        self.rest = rest;
        let difference = self.extended(first >> 4)?;
        let length = self.extended(first & 15)?;
        let (value, rest) = self
            .rest
            .split_at_checked(usize::from(length))
            .ok_or(FORMAT)?;
        self.before = self.before.checked_add(difference).ok_or(FORMAT)?;
        self.rest = rest;
        Ok(Some((self.before, value)))
    }

    /// The payload, where no option is left.
    pub fn payload(&self) -> &'a [u8] {
        match self.rest {
            [_marker, payload @ ..] => payload,
            [] => &[],
        }
    }
}

/// What appends a message to octets.
pub struct Writer<'a> {
    /// The octets.
    octets: &'a mut Vec<u8>,
    /// The number of the option before.
    before: u16,
}

impl<'a> Writer<'a> {
    /// Begins a message.
    pub fn start(
        octets: &'a mut Vec<u8>,
        kind: Kind,
        code: u8,
        mid: u16,
        token: &[u8],
    ) -> Writer<'a> {
        let [high, low] = mid.to_be_bytes();
        let first = 64 | (kind as u8) << 4 | token.len() as u8;
        octets.extend_from_slice(&[first, code, high, low]);
        octets.extend_from_slice(token);
        Writer { octets, before: 0 }
    }

    /// Goes on with a message behind an option.
    pub fn resume(octets: &'a mut Vec<u8>, before: u16) -> Writer<'a> {
        Writer { octets, before }
    }

    /// An option, whose number is less than 13 above that of the one before, and whose value has
    /// at most 268 octets.
    pub fn option(self, number: u16, value: &[u8]) -> Writer<'a> {
        let difference = (number - self.before) as u8;
        if value.len() < 13 {
            self.octets.push(difference << 4 | value.len() as u8);
        } else {
            self.octets
                .extend_from_slice(&[difference << 4 | 13, (value.len() - 13) as u8]);
        }
        self.octets.extend_from_slice(value);
        Writer {
            octets: self.octets,
            before: number,
        }
    }

    /// An option whose value is a number (RFC 7252 section 3.2).
    pub fn uint(self, number: u16, value: u32) -> Writer<'a> {
        let octets = value.to_be_bytes();
        let zeros = value.leading_zeros() as usize / 8;
        self.option(number, &octets[zeros..])
    }

    /// The payload, if there is any.
    pub fn payload(self, payload: &[u8]) {
        if !payload.is_empty() {
            self.octets.push(MARKER);
            self.octets.extend_from_slice(payload);
        }
    }
}

/// The number that the octets of an option say, at most four (RFC 7252 section 3.2).
pub fn uint(value: &[u8]) -> u32 {
    value
        .iter()
        .fold(0, |number, octet| number << 8 | u32::from(*octet))
}
