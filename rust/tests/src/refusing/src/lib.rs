//! An allocator that counts the requests of a thread, and lets one of them fail.

use std::alloc::{GlobalAlloc, Layout, System};
use std::cell::Cell;

thread_local! {
    static IS_COUNTING: Cell<bool> = const { Cell::new(false) };
    static ASKED: Cell<usize> = const { Cell::new(0) };
    /// The number of the request that fails, from 0.
    static REFUSED: Cell<usize> = const { Cell::new(usize::MAX) };
}

/// Starts again from 0, and lets request number `refused` fail once counting is on.
pub fn begin(refused: usize) {
    IS_COUNTING.set(false);
    ASKED.set(0);
    REFUSED.set(refused);
}

/// Whether this thread's requests are counted from here on. Requests that are not counted succeed.
pub fn count(is_counting: bool) {
    IS_COUNTING.set(is_counting);
}

/// How many requests were counted.
pub fn asked() -> usize {
    ASKED.get()
}

/// The result of the call with its request number `place` failing, and whether it made that
/// request.
pub fn refused_at<A>(place: usize, call: impl FnOnce() -> A) -> (A, bool) {
    begin(place);
    count(true);
    let answer = call();
    count(false);
    (answer, asked() > place)
}

/// The result of the call of this name, which must not allocate.
pub fn asks_for_nothing<A>(name: &str, call: impl FnOnce() -> A) -> A {
    let (answer, is_refused) = refused_at(0, call);
    assert!(!is_refused, "{name} asks for memory");
    answer
}

/// Lets the first request of the call of this name fail, then the second, until none fails. The
/// call must return `None` exactly if a request failed.
pub fn refused_in_turn<A>(name: &str, call: impl Fn() -> Option<A>) {
    for place in 0.. {
        let (answer, is_refused) = refused_at(place, &call);
        assert_eq!(answer.is_none(), is_refused, "{name}, request {place}");
        if !is_refused {
            assert!(place > 0, "{name} asks for nothing");
            return;
        }
    }
}

/// Lets each request of a change fail in turn, each time on a new value. The change must return
/// `false` exactly if a request failed, and the value is then unchanged.
pub fn unchanged_where_refused<B>(
    name: &str,
    made: impl Fn() -> B,
    change: impl Fn(&mut B) -> bool,
    is_as_made: impl Fn(&B) -> bool,
) {
    for place in 0.. {
        let mut changed = made();
        let (done, is_refused) = refused_at(place, || change(&mut changed));
        assert_eq!(done, !is_refused, "{name}, request {place}");
        assert!(done || is_as_made(&changed), "{name} is refused request {place}, and changes");
        if done {
            assert!(place > 0, "{name} asks for nothing");
            return;
        }
    }
}

struct Refusing;

fn is_granted() -> bool {
    let is_counting = IS_COUNTING.try_with(Cell::get).unwrap_or(false);
    if !is_counting {
        return true;
    }
    let place = ASKED.get();
    ASKED.set(place + 1);
    place != REFUSED.get()
}

// SAFETY: memory comes from the system's allocator, and null is how the trait reports a failure.
unsafe impl GlobalAlloc for Refusing {
    unsafe fn alloc(&self, layout: Layout) -> *mut u8 {
        if is_granted() { unsafe { System.alloc(layout) } } else { std::ptr::null_mut() }
    }

    unsafe fn dealloc(&self, place: *mut u8, layout: Layout) {
        unsafe { System.dealloc(place, layout) }
    }

    unsafe fn realloc(&self, place: *mut u8, layout: Layout, size: usize) -> *mut u8 {
        if is_granted() {
            unsafe { System.realloc(place, layout, size) }
        } else {
            std::ptr::null_mut()
        }
    }
}

#[global_allocator]
static ALLOCATOR: Refusing = Refusing;
