//! Classes of characters (RFC 6690 section 2, RFC 3986 section 3.3).

/// May stand in the name of a parameter.
pub const NAME: u8 = 1;
/// May stand in a value that is no quoted string.
pub const TOKEN: u8 = 2;
/// May stand in a quoted string as it is.
pub const QUOTED: u8 = 4;
/// May stand in a path, beside percent escapes.
pub const PATH: u8 = 8;

/// The classes of each octet.
const CLASSES: [u8; 256] = classes();

const fn is_among(octet: u8, octets: &[u8]) -> bool {
    let mut index = 0;
    while index < octets.len() {
        if octets[index] == octet {
            return true;
        }
        index += 1;
    }
    false
}

const fn class_if(holds: bool, class: u8) -> u8 {
    if holds {
        class
    } else {
        0
    }
}

const fn classes_of(octet: u8) -> u8 {
    let is_word = octet.is_ascii_alphanumeric();
    let is_quoted = !octet.is_ascii_control() && octet != b'"' && octet != b'\\';
    class_if(is_word || is_among(octet, b"!#$&+-.^_`|~"), NAME)
        | class_if(
            is_word || is_among(octet, b"!#$%&'()*+-./:<=>?@[]^_`{|}~"),
            TOKEN,
        )
        | class_if(is_quoted, QUOTED)
        | class_if(is_word || is_among(octet, b"-._~!$&'()*+,;=:@/"), PATH)
}

const fn classes() -> [u8; 256] {
    let mut classes = [0; 256];
    let mut octet = 0;
    while octet < 256 {
        classes[octet] = classes_of(octet as u8);
        octet += 1;
    }
    classes
}

/// Cuts a text behind the octets of a class at its beginning.
pub fn split_class(class: u8, text: &[u8]) -> (&[u8], &[u8]) {
    let length = text
        .iter()
        .position(|octet| CLASSES[usize::from(*octet)] & class == 0);
    text.split_at(length.unwrap_or(text.len()))
}
