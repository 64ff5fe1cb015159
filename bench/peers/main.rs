//! Answers the lines of a script by a plain hub: those of publish-subscribe, without attributes and without steps of other nodes.
mod hub;
mod lines;

use lines::Script;
use std::io::{self, Read, Write};

const PIECE: usize = 65_536;
const LONGEST_LINE: usize = 1_024;

unsafe extern "C" {
    // Of the C library, which std stands on, too. It looks at many bytes at once.
    fn memchr(bytes: *const u8, wanted: i32, count: usize) -> *const u8;
}

fn newline(bytes: &[u8]) -> Option<usize> {
    // SAFETY: it reads these bytes alone, and answers null or a place among them.
    let found = unsafe { memchr(bytes.as_ptr(), i32::from(b'\n'), bytes.len()) };
    if found.is_null() { None } else { Some(found.addr() - bytes.as_ptr().addr()) }
}

fn answer(script: &mut Script, line: &[u8], replies: &mut Vec<u8>) {
    if line.len() > LONGEST_LINE {
        replies.extend_from_slice(b"err line too long");
    } else {
        script.answer(line, replies);
    }
    replies.push(b'\n');
}

fn main() -> io::Result<()> {
    let (mut input, mut output) = (io::stdin().lock(), io::stdout().lock());
    let (mut script, mut replies) = (Script::default(), Vec::new());
    // What a piece leaves of a line is kept before the next piece; of one that is too long just enough to say so.
    let (mut bytes, mut kept) = (vec![0; LONGEST_LINE + 1 + PIECE], 0);
    loop {
        let count = input.read(&mut bytes[kept..])?;
        if count == 0 {
            break;
        }
        let (end, mut start) = (kept + count, 0);
        while let Some(length) = newline(&bytes[start..end]) {
            answer(&mut script, &bytes[start..start + length], &mut replies);
            start += length + 1;
        }
        kept = (end - start).min(LONGEST_LINE + 1);
        bytes.copy_within(start..start + kept, 0);
        output.write_all(&replies)?;
        output.flush()?;
        replies.clear();
    }
    if kept > 0 {
        answer(&mut script, &bytes[..kept], &mut replies);
        output.write_all(&replies)?;
    }
    output.flush()
}
