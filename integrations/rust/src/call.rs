//! The calls of `latex2mathml.h`.
//!
//! Every `&str` meets the conditions of the header: its pointer is not null even if it is empty, its length is at most
//! `isize::MAX`, and nobody changes it during the call. The room belongs to this module.

use crate::{LatexError, Refusal, TexError};
use std::os::raw::c_char;

const DONE: u32 = 0;
const REFUSED: u32 = 1;
const NOT_UTF8: u32 = 2;
const TOO_SMALL: u32 = 3;
const DEFINITION_REFUSED: u32 = 5;

const ANNOTATION: u32 = 1;

extern "C" {
    fn latex2mathml_formula(
        latex: *const c_char,
        latex_len: usize,
        block: bool,
        out: *mut c_char,
        out_len: usize,
        needed: *mut usize,
    ) -> u32;

    fn latex2mathml_document(
        document: *const c_char,
        document_len: usize,
        out: *mut c_char,
        out_len: usize,
        needed: *mut usize,
    ) -> u32;

    fn latex2mathml_tex(
        definitions: *const c_char,
        definitions_len: usize,
        tex: *const c_char,
        tex_len: usize,
        block: bool,
        flags: u32,
        out: *mut c_char,
        out_len: usize,
        needed: *mut usize,
        place: *mut usize,
    ) -> u32;
}

pub fn formula(latex: &str, block: bool) -> Result<String, LatexError> {
    // SAFETY: the module's comment says why the conditions of the header hold.
    plain(latex.len(), |room, length, needed| unsafe {
        latex2mathml_formula(latex.as_ptr().cast(), latex.len(), block, room, length, needed)
    })
}

pub fn document(document: &str) -> Result<String, LatexError> {
    // SAFETY: as above.
    plain(document.len(), |room, length, needed| unsafe {
        latex2mathml_document(document.as_ptr().cast(), document.len(), room, length, needed)
    })
}

/// Makes a call that reports no place.
fn plain(length: usize, call: impl FnMut(*mut c_char, usize, *mut usize) -> u32) -> Result<String, LatexError> {
    let (code, text) = convert(length, call).ok_or(LatexError::OutOfMemory)?;
    match code {
        DONE => Ok(text),
        _ => Err(LatexError::Refused(text)),
    }
}

pub fn tex(tex: &str, block: bool, definitions: &str) -> Result<String, TexError> {
    tex_with(0, tex, block, definitions)
}

pub fn tex_with_source(tex: &str, block: bool, definitions: &str) -> Result<String, TexError> {
    tex_with(ANNOTATION, tex, block, definitions)
}

fn tex_with(flags: u32, tex: &str, block: bool, definitions: &str) -> Result<String, TexError> {
    let mut place = 0;
    let outcome = convert(tex.len(), |room, length, needed| {
        // SAFETY: as above.
        unsafe {
            latex2mathml_tex(
                definitions.as_ptr().cast(),
                definitions.len(),
                tex.as_ptr().cast(),
                tex.len(),
                block,
                flags,
                room,
                length,
                needed,
                &mut place,
            )
        }
    });
    let (code, text) = outcome.ok_or(TexError::OutOfMemory)?;
    match code {
        DONE => Ok(text),
        DEFINITION_REFUSED => Err(TexError::RefusedDefinitions(Refusal::new(text, definitions, place))),
        _ => Err(TexError::Refused(Refusal::new(text, tex, place))),
    }
}

/// Makes the call with room for its text, and returns its code and the text, unless memory ran out. If the first room is too small,
/// the second call is the last: it has the room that the first one asked for.
fn convert(length: usize, mut call: impl FnMut(*mut c_char, usize, *mut usize) -> u32) -> Option<(u32, String)> {
    let mut text: Vec<u8> = Vec::new();
    // If that much is not available, the call has no room and reports how much it needs.
    let _ = text.try_reserve_exact(likely_room(length));
    loop {
        let mut needed = 0;
        let code = call(text.as_mut_ptr().cast(), text.capacity(), &mut needed);
        if code == TOO_SMALL {
            text.try_reserve_exact(needed).ok()?;
            continue;
        }
        // SAFETY: after a code with a text, the first `needed` bytes of the room contain it, in UTF-8. After any other code,
        // `needed` is 0.
        let mut text = unsafe {
            text.set_len(needed);
            String::from_utf8_unchecked(text)
        };
        text.shrink_to_fit();
        return matches!(code, DONE | REFUSED | NOT_UTF8 | DEFINITION_REFUSED).then(|| (code, text));
    }
}

/// More room than nearly every text of `length` bytes needs.
fn likely_room(length: usize) -> usize {
    length.saturating_mul(64).saturating_add(256)
}

#[cfg(test)]
mod tests {
    use super::*;

    /// The answer of a call that gives this text and code, and the rooms that it was given.
    fn answer_of(text: &str, code: u32) -> (Option<(u32, String)>, Vec<usize>) {
        let mut rooms = Vec::new();
        let answer = convert(1, |room, length, needed| {
            rooms.push(length);
            // SAFETY: `needed` is that of `convert`, and the text is copied only if the room is large enough for it.
            unsafe {
                *needed = text.len();
                if length < text.len() {
                    return TOO_SMALL;
                }
                room.copy_from_nonoverlapping(text.as_ptr().cast(), text.len());
            }
            code
        });
        (answer, rooms)
    }

    #[test]
    fn a_room_that_is_too_small() {
        let text = "é".repeat(1000);
        let (answer, rooms) = answer_of(&text, DONE);
        assert_eq!(answer, Some((DONE, text)));
        assert_eq!(rooms.len(), 2);
        assert!(rooms[0] < 2000 && rooms[1] >= 2000, "{:?}", rooms);
    }

    #[test]
    fn each_code() {
        for code in [DONE, REFUSED, NOT_UTF8, DEFINITION_REFUSED] {
            assert_eq!(answer_of("why", code).0, Some((code, "why".to_owned())));
        }
        assert_eq!(answer_of("", DONE).0, Some((DONE, String::new())));
        assert_eq!(answer_of("", 4).0, None);
    }

    #[test]
    fn each_error() {
        let error_of = |code| {
            plain(0, |_, _, needed| {
                // SAFETY: `needed` is that of `convert`.
                unsafe { *needed = 0 };
                code
            })
        };
        assert_eq!(error_of(DONE), Ok(String::new()));
        assert_eq!(error_of(REFUSED), Err(LatexError::Refused(String::new())));
        assert_eq!(error_of(NOT_UTF8), Err(LatexError::Refused(String::new())));
        assert_eq!(error_of(4), Err(LatexError::OutOfMemory));
    }

    #[test]
    fn a_room_that_cannot_be_had() {
        let answer = convert(usize::MAX, |_, length, needed| {
            // SAFETY: `needed` is that of `convert`.
            unsafe { *needed = 0 };
            assert_eq!(length, 0);
            DONE
        });
        assert_eq!(answer, Some((DONE, String::new())));
    }
}
