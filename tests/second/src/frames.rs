//! Framed streams: each frame is its length in four bytes, high byte first,
//! then that many bytes, to the end of input. The first byte of a frame is a
//! kind, and the rest a case of it.

use crate::kinds::Kind;

pub fn frame(kind: Kind, case: &[u8]) -> Vec<u8> {
    framed(&[&[kind.byte()], case].concat())
}

/// A frame of any bytes, which may begin with no kind.
pub fn framed(bytes: &[u8]) -> Vec<u8> {
    [&(bytes.len() as u32).to_be_bytes(), bytes].concat()
}

pub fn join(kind: Kind, cases: &[Vec<u8>]) -> Vec<u8> {
    cases.iter().flat_map(|case| frame(kind, case)).collect()
}

/// The frames of a stream; one that is cut short ends it.
pub fn split(stream: &[u8]) -> Vec<&[u8]> {
    let mut frames = Vec::new();
    let mut rest = stream;
    while let [a, b, c, d, tail @ ..] = rest {
        let length = u32::from_be_bytes([*a, *b, *c, *d]) as usize;
        if tail.len() < length {
            break;
        }
        let (frame, after) = tail.split_at(length);
        frames.push(frame);
        rest = after;
    }
    frames
}

/// What a program prints for a stream.
pub fn run(stream: &[u8]) -> String {
    split(stream).into_iter().map(run_frame).collect()
}

fn run_frame(frame: &[u8]) -> String {
    match frame.split_first() {
        None => String::from("NO KIND\n"),
        Some((byte, case)) => match Kind::of_byte(*byte) {
            Some(kind) => kind.run(case),
            None => String::from("UNKNOWN KIND\n"),
        },
    }
}
