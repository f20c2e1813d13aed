//! Which panics are printed.
//!
//! A panic hook is the whole process's, so this file has but the one test that sets one.

use std::panic;
use std::sync::atomic::{AtomicUsize, Ordering};

use oracle::{on_large_stack, read, Stop};

#[test]
fn only_expected_panics_are_quiet() {
    static PRINTED: AtomicUsize = AtomicUsize::new(0);
    let printed = || PRINTED.load(Ordering::SeqCst);
    let usual = panic::take_hook();
    panic::set_hook(Box::new(|_| {
        PRINTED.fetch_add(1, Ordering::SeqCst);
    }));

    let stops = [
        read("1.5").stop,
        read("1=2").stop,
        read("let 1").stop,
        on_large_stack(|| read("{return}").stop),
    ];
    let by_reading = printed();

    // A panic outside `read` is printed, also on a thread that has read before.
    let here = panic::catch_unwind(|| panic!("here"));
    let after_here = printed();

    // A panic on the thread with the large stack is printed once and goes on in the caller.
    let there = panic::catch_unwind(|| on_large_stack(|| panic!("there")));
    let after_there = printed();

    // The usual hook comes back first, so that a failure below is printed.
    panic::set_hook(usual);
    use Stop::{Lexing, Parsing};
    assert_eq!(stops, [Lexing, Parsing, Parsing, Parsing]);
    assert_eq!(by_reading, 0);
    assert_eq!(here.unwrap_err().downcast_ref(), Some(&"here"));
    assert_eq!(after_here, 1);
    assert_eq!(there.unwrap_err().downcast_ref(), Some(&"there"));
    assert_eq!(after_there, 2);
}
