//! Writes that were admitted, so that a repeated datagram gets the same answer (RFC 7252
//! section 4.5).

use crate::tables::Table;
use crate::Unhandled;
use std::collections::VecDeque;

/// The most exchanges that are kept.
const MOST: usize = 4_096;

/// How long one is kept, in milliseconds.
const LIFETIME: u64 = 247_000;

/// The answer to a write.
struct Reply {
    length: u8,
    octets: [u8; 64],
}

/// An exchange.
struct Exchange {
    /// The peer and the Message ID.
    key: u64,
    /// When it was admitted.
    admitted: u64,
    /// Its answer; none of length 0 while it is not done.
    reply: Reply,
}

/// What becomes of a write that comes.
pub enum Admitted<'a> {
    /// It is new, and admitted under this sequence number.
    New(u64),
    /// It was admitted before, and this was its answer, if it is done.
    Before(Option<&'a [u8]>),
}

/// The exchanges that are kept.
#[derive(Default)]
pub struct Exchanges {
    /// All, the oldest first.
    rows: VecDeque<Exchange>,
    /// The sequence number of the oldest.
    first: u64,
    /// The sequence number of the latest under each key.
    latest: Table<u64, u64>,
}

impl Exchanges {
    /// The exchange of a sequence number.
    fn at(&self, sequence: u64) -> &Exchange {
        &self.rows[(sequence - self.first) as usize]
    }

    /// Forgets those that are too old.
    pub fn age(&mut self, now: u64) {
        while let Some(oldest) = self.rows.front() {
            if now - oldest.admitted < LIFETIME {
                return;
            }
            if self.latest.get(&oldest.key) == Some(&self.first) {
                self.latest.remove(&oldest.key);
            }
            self.rows.pop_front();
            self.first += 1;
        }
    }

    /// A write comes, under a peer and a Message ID.
    pub fn admit(&mut self, now: u64, key: u64) -> Result<Admitted<'_>, Unhandled> {
        self.age(now);
        if let Some(&sequence) = self.latest.get(&key) {
            let Reply { length, octets } = &self.at(sequence).reply;
            let is_done = *length > 0;
            return Ok(Admitted::Before(
                is_done.then(|| &octets[..usize::from(*length)]),
            ));
        }
        if self.rows.len() == MOST {
            return Err(Unhandled("exchanges"));
        }
        let sequence = self.first + self.rows.len() as u64;
        let reply = Reply {
            length: 0,
            octets: [0; 64],
        };
        self.rows.push_back(Exchange {
            key,
            admitted: now,
            reply,
        });
        self.latest.insert(key, sequence);
        Ok(Admitted::New(sequence))
    }

    /// A write is answered, by at most 64 octets.
    pub fn settle(&mut self, sequence: u64, reply: &[u8]) {
        let row = sequence.checked_sub(self.first).map(|row| row as usize);
        let Some(exchange) = row.and_then(|row| self.rows.get_mut(row)) else {
            return;
        };
        exchange.reply.length = reply.len() as u8;
        exchange.reply.octets[..reply.len()].copy_from_slice(reply);
    }
}
