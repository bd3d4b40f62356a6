//! The trace that is made for a number of devices.

use crate::message::{codes, options, Kind, Writer};
use crate::peer::Peer;
use crate::trace::{put_decimal, put_hexadecimal};

/// The milliseconds from one device to the next.
const PACE: u64 = 200;

/// Where the observers are.
const ONLOOKER: Peer = Peer {
    host: [10, 1, 0, 1],
    port: 40_000,
};

/// A trace that is being made.
#[derive(Default)]
struct Maker {
    /// Its text so far.
    text: Vec<u8>,
    /// Room for a datagram.
    datagram: Vec<u8>,
    /// Room for a text in it.
    value: Vec<u8>,
}

/// The lifetime that a device asks for, in seconds.
fn lifetime(device: u16) -> u64 {
    60 + 611 * u64::from(device) % 3_600
}

/// Where a device is.
fn place(device: u16) -> Peer {
    let [high, low] = device.to_be_bytes();
    Peer {
        host: [10, 0, high, low],
        port: 5_683,
    }
}

impl Maker {
    /// A text with a number behind it.
    fn numbered(&mut self, text: &[u8], number: u64) -> &[u8] {
        self.value.clear();
        self.value.extend_from_slice(text);
        put_decimal(&mut self.value, number);
        &self.value
    }

    /// The beginning of a line: a word, worker 0 and a moment.
    fn begin(&mut self, word: &[u8], moment: u64) {
        self.text.extend_from_slice(word);
        self.text.extend_from_slice(b" 0 ");
        put_decimal(&mut self.text, moment);
    }

    /// A line of the datagram, which comes from a peer.
    fn come(&mut self, moment: u64, peer: Peer) {
        self.begin(b"in", moment);
        self.text.push(b' ');
        peer.put(&mut self.text);
        self.text.push(b' ');
        put_hexadecimal(&mut self.text, &self.datagram);
        self.text.push(b'\n');
    }

    /// An option of the datagram: a text with a number behind it.
    fn put_numbered(&mut self, before: u16, option: u16, text: &[u8], number: u64) {
        self.numbered(text, number);
        Writer::resume(&mut self.datagram, before).option(option, &self.value);
    }

    /// A device registers.
    fn registration(&mut self, device: u16) {
        self.datagram.clear();
        let token = [device as u8];
        Writer::start(&mut self.datagram, Kind::Con, codes::POST, device, &token)
            .option(options::URI_PATH, b"rd");
        self.put_numbered(
            options::URI_PATH,
            options::URI_QUERY,
            b"ep=dev",
            device.into(),
        );
        self.put_numbered(
            options::URI_QUERY,
            options::URI_QUERY,
            b"lt=",
            lifetime(device),
        );
        self.datagram.extend_from_slice(b"\xff</t>;rt=\"temp\",</s");
        put_decimal(&mut self.datagram, u64::from(device % 10));
        self.datagram.extend_from_slice(b">;rt=\"kind");
        put_decimal(&mut self.datagram, u64::from(device % 7));
        self.datagram.push(b'"');
        self.come(PACE * u64::from(device), place(device));
    }

    /// An observer of the links of a device's kind comes.
    fn observation(&mut self, device: u16) {
        self.datagram.clear();
        let token = device.to_be_bytes();
        Writer::start(
            &mut self.datagram,
            Kind::Con,
            codes::GET,
            20_000 + device,
            &token,
        )
        .option(options::OBSERVE, b"")
        .option(options::URI_PATH, b"rd-lookup")
        .option(options::URI_PATH, b"res");
        let kind = u64::from(device % 7);
        self.put_numbered(options::URI_PATH, options::URI_QUERY, b"rt=kind", kind);
        self.come(PACE * u64::from(device) + 2, ONLOOKER);
    }

    /// The lines of a device.
    fn device(&mut self, device: u16) {
        let moment = PACE * u64::from(device);
        self.registration(device);
        self.begin(b"go", moment + 1);
        self.text.push(b'\n');
        if device % 10 == 0 {
            self.observation(device);
        }
        if device % 100 == 0 {
            self.begin(b"tick", moment + 3);
            self.text.push(b' ');
            put_decimal(&mut self.text, device.into());
            self.text.push(b'\n');
        }
    }
}

/// The text of the trace of so many devices, at most 4,000.
pub fn made(devices: u32) -> Vec<u8> {
    let mut maker = Maker::default();
    for device in 1..=devices {
        maker.device(device as u16);
    }
    maker.begin(b"tick", PACE * u64::from(devices) + 10);
    maker.text.push(b'\n');
    maker.text
}
