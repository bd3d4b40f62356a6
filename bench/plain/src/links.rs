//! Link documents (RFC 6690 section 2), read once into the room of a draft.

use crate::characters::{split_class, NAME, PATH, QUOTED, TOKEN};
use crate::record::{Link, Room, Span, Value};
use crate::tables::print_of;
use crate::Unhandled;
use std::str;

/// A body is no link document.
const LINKS: Unhandled = Unhandled("links");

/// Puts the links of a document into a room, whose text begins with the base.
pub fn put_links(room: &mut Room, base: Span, document: &[u8]) -> Result<(), Unhandled> {
    if str::from_utf8(document).is_err() {
        return Err(LINKS);
    }
    if document.is_empty() {
        return Ok(());
    }
    let mut rest = put_link(room, base, document)?;
    while let [b',', more @ ..] = rest {
        rest = put_link(room, base, more)?;
    }
    if rest.is_empty() {
        return Ok(());
    }
    Err(LINKS)
}

/// Puts the link that a text begins with; what follows it.
fn put_link<'a>(room: &mut Room, base: Span, text: &'a [u8]) -> Result<&'a [u8], Unhandled> {
    let [b'<', text @ ..] = text else {
        return Err(LINKS);
    };
    let (target, text) = split_class(PATH, text);
    let [b'>', parameters @ ..] = text else {
        return Err(Unhandled("target"));
    };
    check_path(target)?;
    let first = room.values.len();
    let start = room.text.len();
    room.text.extend_from_slice(b",<");
    room.text.extend_from_within(..base.len());
    room.text.extend_from_slice(target);
    room.text.push(b'>');
    let mut rest = parameters;
    while let [b';', more @ ..] = rest {
        rest = put_parameter(room, more)?;
    }
    let line = Span::of(start, room.text.len());
    room.links.push(Link {
        line,
        values: Span::of(first, room.values.len()),
    });
    Ok(rest)
}

/// Whether a reference is a path without dot segments, so that the base with it behind is what it
/// resolves to (RFC 3986 section 5.2).
fn check_path(target: &[u8]) -> Result<(), Unhandled> {
    let is_path = target.starts_with(b"/") && !target.starts_with(b"//");
    let may_have_dots = target.windows(2).any(|pair| pair == b"/.");
    if !is_path || may_have_dots {
        return Err(Unhandled("target"));
    }
    Ok(())
}

/// Puts the parameter that a text begins with, behind its semicolon; what follows it.
fn put_parameter<'a>(room: &mut Room, text: &'a [u8]) -> Result<&'a [u8], Unhandled> {
    let (name, rest) = split_class(NAME, text);
    if name.is_empty() || name == b"anchor" {
        return Err(Unhandled("parameter of a link"));
    }
    let (marked, value, rest) = value_in(rest)?;
    let name_at = room.text.len() + 1;
    let value_at = name_at + name.len() + marked;
    room.text.push(b';');
    room.text
        .extend_from_slice(&text[..text.len() - rest.len()]);
    let name_span = Span::of(name_at, name_at + name.len());
    if matches!(name, b"rel" | b"rev" | b"rt" | b"if") {
        put_list(room, name, name_span, value_at, value);
    } else {
        let print = print_of(name, value);
        let value = Span::of(value_at, value_at + value.len());
        room.values.push(Value {
            name: name_span,
            value,
            print,
        });
    }
    Ok(rest)
}

/// The value that stands behind a name: how many octets mark it, the value, and what follows.
fn value_in(text: &[u8]) -> Result<(usize, &[u8], &[u8]), Unhandled> {
    match text {
        [b'=', b'"', quoted @ ..] => {
            let (value, rest) = split_class(QUOTED, quoted);
            match rest {
                [b'"', rest @ ..] => Ok((2, value, rest)),
                _ => Err(Unhandled("quoted")),
            }
        }
        [b'=', token @ ..] => {
            let (value, rest) = split_class(TOKEN, token);
            if value.is_empty() {
                return Err(LINKS);
            }
            Ok((1, value, rest))
        }
        _ => Ok((0, &[], text)),
    }
}

/// Puts the values of a list, which stands at a place of the text.
fn put_list(room: &mut Room, name: &[u8], name_span: Span, start: usize, list: &[u8]) {
    let mut at = start;
    for part in list.split(|octet| *octet == b' ') {
        let end = at + part.len();
        if !part.is_empty() {
            let (value, print) = (Span::of(at, end), print_of(name, part));
            room.values.push(Value {
                name: name_span,
                value,
                print,
            });
        }
        at = end + 1;
    }
}
