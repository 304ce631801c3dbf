// Written by dist/erase from crates/cqlp_pattern/src/brackets.rt.
//! Classes of characters in brackets.

use crate::cqlp_pattern::bad_pattern::{BadPattern, PatternFault};
use crate::cqlp_pattern::class::Class;
use crate::cqlp_pattern::escape::{Member, escaped};

/// What is in brackets, and the place behind them.
#[derive(Clone, Copy)]
pub(crate) struct BracketsRead {
    pub(crate) class: Class,
    /// Whether it is any other character that is asked for.
    pub(crate) is_negated: bool,
    pub(crate) next: usize,
}

/// A class, and the place behind it.
#[derive(Clone, Copy)]
struct ClassRead {
    class: Class,
    next: usize,
}

/// What is in the brackets that open at this place.
pub(crate) fn read_brackets(text: &[u8], open: usize) -> Result<BracketsRead, BadPattern> {
    let inside = open.saturating_add(1);
    let is_negated = byte_at(text, inside) == Some(b'^');
    let first = if is_negated {
        inside.saturating_add(1)
    } else {
        inside
    };
    let mut class = Class::NONE;
    let mut next = first;
    for at in first..text.len() {
        if at < next {
            continue;
        }
        if at != first && text[at] == b']' {
            return Ok(BracketsRead {
                class,
                is_negated,
                next: at + 1,
            });
        }
        let range = read_range(text, at)?;
        class = class.union(range.class);
        next = range.next;
    }
    Err(BadPattern::new(PatternFault::OpenBrackets, open))
}

/// The byte at a place, if there is one.
pub(crate) fn byte_at(text: &[u8], at: usize) -> Option<u8> {
    text.get(at).copied()
}

/// A character or a class, and the place behind it.
#[derive(Clone, Copy)]
struct MemberRead {
    member: Member,
    next: usize,
}

/// A range, or one member.
fn read_range(text: &[u8], at: usize) -> Result<ClassRead, BadPattern> {
    let first = read_member(text, at)?;
    let behind = first.next.saturating_add(1);
    let is_range = byte_at(text, first.next) == Some(b'-')
        && !matches!(byte_at(text, behind), Some(b']') | None);
    if !is_range {
        return Ok(ClassRead {
            class: first.member.class(),
            next: first.next,
        });
    }
    let last = read_member(text, behind)?;
    match (first.member, last.member) {
        (Member::Character(from), Member::Character(to)) if from <= to => Ok(ClassRead {
            class: Class::range(from, to),
            next: last.next,
        }),
        _ => Err(BadPattern::new(PatternFault::BracketsRange, at)),
    }
}

fn read_member(text: &[u8], at: usize) -> Result<MemberRead, BadPattern> {
    let next = at.saturating_add(1);
    let is_named = matches!(byte_at(text, next), Some(b':' | b'.' | b'='));
    match byte_at(text, at) {
        Some(b'\\') => {
            let member = escaped(text, at)?;
            Ok(MemberRead {
                member,
                next: next.saturating_add(1),
            })
        }
        Some(c) if c < 128 && !(c == b'[' && is_named) => Ok(MemberRead {
            member: Member::Character(c),
            next,
        }),
        _ => Err(BadPattern::new(PatternFault::BracketsMember, at)),
    }
}
