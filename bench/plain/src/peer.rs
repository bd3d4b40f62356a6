//! Peers: who sends a datagram, and to whom one goes.

use crate::trace::put_decimal;

/// The port of CoAP (RFC 7252 section 6.1).
const COAP: u16 = 5_683;

/// An IPv4 address and a UDP port.
#[derive(Clone, Copy, Debug, PartialEq, Eq)]
pub struct Peer {
    /// The address.
    pub host: [u8; 4],
    /// The port.
    pub port: u16,
}

impl Peer {
    /// The peer in the high 48 bits, and a Message ID in the low 16.
    pub fn key(&self, mid: u16) -> u64 {
        let [a, b, c, d] = self.host;
        let [high, low] = self.port.to_be_bytes();
        let [first, second] = mid.to_be_bytes();
        u64::from_be_bytes([a, b, c, d, high, low, first, second])
    }

    /// Appends its address.
    fn put_host(&self, text: &mut Vec<u8>) {
        let [first, rest @ ..] = self.host;
        put_decimal(text, u64::from(first));
        for octet in rest {
            text.push(b'.');
            put_decimal(text, u64::from(octet));
        }
    }

    /// Appends it as it stands in a trace.
    pub fn put(&self, text: &mut Vec<u8>) {
        self.put_host(text);
        text.push(b':');
        put_decimal(text, u64::from(self.port));
    }

    /// Appends the base that a registration from it has (RFC 9176 section 5).
    pub fn put_base(&self, text: &mut Vec<u8>) {
        text.extend_from_slice(b"coap://");
        self.put_host(text);
        if self.port != COAP {
            text.push(b':');
            put_decimal(text, u64::from(self.port));
        }
    }
}
