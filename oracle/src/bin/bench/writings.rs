//! Rows of writers. Our side writes into an output that is made once.

use crate::rows::{Row, WHOLE};
use crate::values::{self, Session, Writing};
use std::hint::black_box;
use std::rc::Rc;

pub fn rows() -> Vec<Row> {
    vec![
        handshake("write of a handshake", 20_000, values::handshake()),
        message("write of Peers of 64 entries", 400, values::peers()),
        message("write of Inv of 400 ids", 200, values::inv()),
        message("write of Response of 8 MB", 1, values::response(400)),
        session("write of a session of 64 KiB", 64 << 10, 50),
        session("write of a session of 64 MiB", 64 << 20, 1),
    ]
}

/// Our side asks every question before the first byte, the Rust asks none.
pub fn handshake(name: &'static str, calls: usize, writing: Writing) -> Row {
    let writing = Rc::new(writing);
    Row::plain(name, WHOLE, ours(calls, &writing), rust(calls, &writing))
}

pub fn message(name: &'static str, calls: usize, writing: Writing) -> Row {
    let writing = Rc::new(writing);
    Row::hashing(name, ours(calls, &writing), rust(calls, &writing))
}

/// Ours of a handshake or a message, whose bytes are the Rust's.
fn ours(calls: usize, writing: &Rc<Writing>) -> impl FnMut() {
    let writing = writing.clone();
    let bytes = (writing.rust)();
    let mut out = vec![0; bytes.len()];
    assert_eq!((writing.ours)(&mut out, 0), bytes.len());
    assert!(out == bytes, "the bytes differ");
    move || {
        for _ in 0..calls {
            black_box((writing.ours)(black_box(&mut out), 0));
        }
    }
}

fn rust(calls: usize, writing: &Rc<Writing>) -> impl FnMut() + Clone {
    let writing = writing.clone();
    move || {
        for _ in 0..calls {
            black_box((writing.rust)());
        }
    }
}

/// A session of at least so many bytes, which the Rust too writes into room that is made once.
fn session(name: &'static str, length: usize, calls: usize) -> Row {
    let session = Rc::new(values::session(length));
    let mut out = vec![0; session.bytes.len()];
    let mut rust_out = vec![];
    put(&session, &mut out);
    extend(&session, &mut rust_out);
    assert!(out == session.bytes && rust_out == session.bytes, "the bytes differ");
    let ours = {
        let session = session.clone();
        move || (0..calls).for_each(|_| put(&session, black_box(&mut out)))
    };
    let rust = move || (0..calls).for_each(|_| extend(&session, black_box(&mut rust_out)));
    Row::hashing(name, ours, rust)
}

/// Each item where the last one ended.
fn put(session: &Session, out: &mut [u8]) {
    let end = session.items.iter().fold(0, |at, item| (session.kinds[*item].ours)(out, at));
    assert_eq!(end, session.bytes.len());
}

fn extend(session: &Session, out: &mut Vec<u8>) {
    out.clear();
    session.items.iter().for_each(|item| out.extend((session.kinds[*item].rust)()));
}
