//! Listings that are kept for their further blocks (RFC 7959 section 2.4).

use crate::peer::Peer;
use std::rc::Rc;

/// The most listings that are kept.
const MOST: usize = 64;

/// How long one is kept after its last use, in milliseconds.
const LIFETIME: u64 = 247_000;

/// The entity tag of a listing.
pub type Tag = [u8; 8];

/// A listing that is kept.
pub struct Answer {
    /// Who asked for it.
    pub peer: Peer,
    /// The key of the request.
    pub key: Rc<[u8]>,
    /// The listing.
    pub body: Rc<[u8]>,
    /// Its tag.
    pub tag: Tag,
}

/// The listings that are kept, that of the latest use last.
#[derive(Default)]
pub struct Kept {
    answers: Vec<(u64, Answer)>,
}

impl Kept {
    /// The place of a listing.
    fn place(&self, peer: Peer, key: &[u8]) -> Option<usize> {
        self.answers
            .iter()
            .position(|(_, answer)| answer.peer == peer && *answer.key == *key)
    }

    /// Keeps one more, in place of the one under its name or of the one least lately used.
    pub fn keep(&mut self, now: u64, answer: Answer) {
        if let Some(place) = self.place(answer.peer, &answer.key) {
            self.answers.remove(place);
        } else if self.answers.len() == MOST {
            self.answers.remove(0);
        }
        self.answers.push((now, answer));
    }

    /// Uses one again.
    pub fn read(&mut self, now: u64, peer: Peer, key: &[u8]) -> Option<&Answer> {
        let place = self.place(peer, key)?;
        if now - self.answers[place].0 >= LIFETIME {
            return None;
        }
        let (_, answer) = self.answers.remove(place);
        self.answers.push((now, answer));
        self.answers.last().map(|(_, answer)| answer)
    }
}
