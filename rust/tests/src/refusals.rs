//! How the tests in `memory` run. A test says `call` before and `done` after the calls that it is
//! about, once or several times. In a test whose name ends in `_refused`, each allocation between
//! the two fails in turn: the test has to say `refused` if one failed and only then, and there must
//! be an allocation between each pair. In one whose name ends in `_quiet` there must be none.

use std::cell::Cell;

std::thread_local! {
    static IS_SAID: Cell<bool> = const { Cell::new(false) };
    /// How many requests were made before the last `call`.
    static BEFORE: Cell<usize> = const { Cell::new(0) };
    /// Whether there was no request between some `call` and the next `done`.
    static IS_IDLE: Cell<bool> = const { Cell::new(false) };
    /// How many pairs of `call` and `done` there were.
    static PAIRS: Cell<usize> = const { Cell::new(0) };
}

/// Says what a test is about to do (`call`), that it is done (`done`), or that an allocation failed
/// (`refused`).
pub(crate) fn say(word: &str) {
    match word {
        "call" => {
            BEFORE.set(refusing::asked());
            refusing::count(true);
        }
        "done" => {
            refusing::count(false);
            IS_IDLE.set(IS_IDLE.get() || refusing::asked() == BEFORE.get());
            PAIRS.set(PAIRS.get() + 1);
        }
        "refused" => IS_SAID.set(true),
        _ => panic!("no such word: {word}"),
    }
}

/// Runs the test with request number `refused` failing, and returns how many requests it made.
fn asked_in(test: fn(), refused: usize) -> usize {
    IS_SAID.set(false);
    IS_IDLE.set(false);
    PAIRS.set(0);
    refusing::begin(refused);
    test();
    refusing::count(false);
    refusing::asked()
}

/// Runs a test that ends in `_refused`.
pub(crate) fn each_refused(test: fn()) {
    for place in 0.. {
        let is_refused = asked_in(test, place) > place;
        assert_eq!(IS_SAID.get(), is_refused, "what is said of request {place}");
        if !is_refused {
            assert!(place > 0 && !IS_IDLE.get(), "a call asks for nothing");
            return;
        }
    }
}

/// Runs a test that ends in `_quiet`.
pub(crate) fn none_asked(test: fn()) {
    assert_eq!(asked_in(test, usize::MAX), 0, "requests in the call");
    assert!(PAIRS.get() > 0 && !IS_SAID.get(), "no call");
}
