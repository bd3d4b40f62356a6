//! The lines of a trace and of its output.

use crate::outbox::Outbox;
use crate::peer::Peer;
use crate::Unhandled;

/// The most octets of a datagram.
const MOST: usize = 4_096;

/// What an octet is worth that is no hexadecimal digit.
const NO_DIGIT: u8 = 16;

/// What each octet is worth as a hexadecimal digit.
const WORTH: [u8; 256] = worths();

/// The hexadecimal digits.
const DIGITS: &[u8; 16] = b"0123456789abcdef";

const fn worths() -> [u8; 256] {
    let mut worths = [NO_DIGIT; 256];
    let mut worth = 0;
    while worth < 16 {
        worths[DIGITS[worth as usize] as usize] = worth;
        worths[DIGITS[worth as usize].to_ascii_uppercase() as usize] = worth;
        worth += 1;
    }
    worths
}

/// A number in decimal digits.
pub struct Digits {
    /// The digits, behind zeros.
    octets: [u8; 20],
    /// Where they begin.
    start: usize,
}

impl Digits {
    /// The digits of a number.
    pub fn of(number: u64) -> Digits {
        let mut digits = Digits {
            octets: [0; 20],
            start: 20,
        };
        let mut rest = number;
        for place in digits.octets.iter_mut().rev() {
            *place = b'0' + (rest % 10) as u8;
            digits.start -= 1;
            rest /= 10;
            if rest == 0 {
                break;
            }
        }
        digits
    }

    /// The digits.
    pub fn octets(&self) -> &[u8] {
        &self.octets[self.start..]
    }
}

/// Appends a number in decimal digits.
pub fn put_decimal(text: &mut Vec<u8>, number: u64) {
    text.extend_from_slice(Digits::of(number).octets());
}

/// Appends octets in hexadecimal digits.
pub fn put_hexadecimal(text: &mut Vec<u8>, octets: &[u8]) {
    text.extend(octets.iter().flat_map(|octet| {
        [
            DIGITS[usize::from(octet >> 4)],
            DIGITS[usize::from(octet & 15)],
        ]
    }));
}

/// Appends the lines of what a step of worker 0 sent.
pub fn put_sent(text: &mut Vec<u8>, sent: &Outbox) {
    for (peer, datagram) in sent.datagrams() {
        text.extend_from_slice(b"out 0 ");
        peer.put(text);
        text.push(b' ');
        put_hexadecimal(text, datagram);
        text.push(b'\n');
    }
}

/// A line of a trace, of worker 0. Moments are in milliseconds.
pub enum Line<'a> {
    /// A datagram comes.
    Come {
        moment: u64,
        peer: Peer,
        datagram: &'a [u8],
    },
    /// The worker does its job.
    Go { moment: u64 },
    /// Time passes, with a word.
    Tick { moment: u64, word: u32 },
}

/// The lines of a trace, one after the other.
pub struct Lines<'a> {
    /// What is not read yet.
    rest: &'a [u8],
    /// Room for the datagram of the last line.
    datagram: [u8; MOST],
}

/// A line is none that is handled.
const FORM: Unhandled = Unhandled("form");

impl<'a> Lines<'a> {
    /// The lines of a text.
    pub fn of(text: &'a [u8]) -> Lines<'a> {
        Lines {
            rest: text,
            datagram: [0; MOST],
        }
    }

    /// The next line.
    pub fn next(&mut self) -> Result<Option<Line<'_>>, Unhandled> {
        if self.rest.is_empty() {
            return Ok(None);
        }
        if self.skip(b"in 0 ") {
            return self.come().map(Some);
        }
        if self.skip(b"go 0 ") {
            let moment = self.number(15)?;
            self.end()?;
            return Ok(Some(Line::Go { moment }));
        }
        if self.skip(b"tick 0 ") {
            return self.tick().map(Some);
        }
        Err(FORM)
    }

    /// Passes over a text, where it comes next.
    fn skip(&mut self, text: &[u8]) -> bool {
        match self.rest.strip_prefix(text) {
            Some(rest) => {
                self.rest = rest;
                true
            }
            None => false,
        }
    }

    /// Passes over a text, which has to come next.
    fn expect(&mut self, text: &[u8]) -> Result<(), Unhandled> {
        if self.skip(text) {
            return Ok(());
        }
        Err(FORM)
    }

    /// Passes over the end of a line.
    fn end(&mut self) -> Result<(), Unhandled> {
        if self.rest.is_empty() {
            return Ok(());
        }
        self.expect(b"\n")
    }

    /// A number in decimal digits, at most so many and without leading zeros.
    fn number(&mut self, most: usize) -> Result<u64, Unhandled> {
        let mut number = 0;
        let mut rest = self.rest;
        while let [digit @ b'0'..=b'9', more @ ..] = rest {
            number = number * 10 + u64::from(digit - b'0');
            rest = more;
            if self.rest.len() - rest.len() > most {
                return Err(FORM);
            }
        }
        let digits = self.rest.len() - rest.len();
        if digits == 0 || (digits > 1 && self.rest[0] == b'0') {
            return Err(FORM);
        }
        self.rest = rest;
        Ok(number)
    }

    /// A number of at most five digits that fits.
    fn small<T: TryFrom<u64>>(&mut self) -> Result<T, Unhandled> {
        T::try_from(self.number(5)?).map_err(|_| FORM)
    }

    /// A peer.
    fn peer(&mut self) -> Result<Peer, Unhandled> {
        let mut host = [0; 4];
        host[0] = self.small()?;
        for octet in &mut host[1..] {
            self.expect(b".")?;
            *octet = self.small()?;
        }
        self.expect(b":")?;
        let port = self.small()?;
        Ok(Peer { host, port })
    }

    /// The octets of a datagram into their room; how many they are.
    fn octets(&mut self) -> Result<usize, Unhandled> {
        let mut length = 0;
        for (octet, pair) in self.datagram.iter_mut().zip(self.rest.chunks_exact(2)) {
            let (high, low) = (WORTH[usize::from(pair[0])], WORTH[usize::from(pair[1])]);
            if high | low >= NO_DIGIT {
                break;
            }
            *octet = high << 4 | low;
            length += 1;
        }
        self.rest = &self.rest[2 * length..];
        if length == 0 {
            return Err(FORM);
        }
        Ok(length)
    }

    /// A datagram that comes, from its moment on.
    fn come(&mut self) -> Result<Line<'_>, Unhandled> {
        let moment = self.number(15)?;
        self.expect(b" ")?;
        let peer = self.peer()?;
        self.expect(b" ")?;
        let length = self.octets()?;
        self.end()?;
        Ok(Line::Come {
            moment,
            peer,
            datagram: &self.datagram[..length],
        })
    }

    /// Time that passes, from its moment on.
    fn tick(&mut self) -> Result<Line<'_>, Unhandled> {
        let moment = self.number(15)?;
        let word = if self.skip(b" ") { self.number(10)? } else { 0 };
        self.end()?;
        let word = u32::try_from(word).map_err(|_| FORM)?;
        Ok(Line::Tick { moment, word })
    }
}
