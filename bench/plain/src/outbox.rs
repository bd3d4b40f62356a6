//! What a step sends.

use crate::peer::Peer;

/// Datagrams with the peers that they go to.
#[derive(Default)]
pub struct Outbox {
    /// Their octets, one datagram after the other.
    octets: Vec<u8>,
    /// Of each its peer, and where it ends.
    ends: Vec<(Peer, usize)>,
}

impl Outbox {
    /// Empties it.
    pub fn clear(&mut self) {
        self.octets.clear();
        self.ends.clear();
    }

    /// Appends a datagram that `write` appends to the octets, and gives it back.
    pub fn push(&mut self, peer: Peer, write: impl FnOnce(&mut Vec<u8>)) -> &[u8] {
        let start = self.octets.len();
        write(&mut self.octets);
        self.ends.push((peer, self.octets.len()));
        &self.octets[start..]
    }

    /// How many datagrams there are.
    pub fn len(&self) -> usize {
        self.ends.len()
    }

    /// How many octets they have.
    pub fn octets(&self) -> usize {
        self.octets.len()
    }

    /// The datagrams with their peers.
    pub fn datagrams(&self) -> impl Iterator<Item = (Peer, &[u8])> {
        let mut start = 0;
        self.ends.iter().map(move |&(peer, end)| {
            let datagram = &self.octets[start..end];
            start = end;
            (peer, datagram)
        })
    }
}
