//! Stand-ins for the assertions of turso_core, which also measure the sweeps.
//!
//! `evict_one` evaluates one assertion each time it looks at a page and another
//! one for each page that it takes. Counting the two evaluations tells how many
//! pages a call looked at and took without a line of the cache being changed:
//! the pages passed are those looked at and not taken.

use std::cell::Cell;

/// Asserted by `evict_one` at each look.
const LOOK: &str = "page_cache: clock hand is null during eviction";
/// Asserted by `evict_one` for each victim.
const VICTIM: &str = "mismatched evictable count state";

thread_local! {
    static LOOKS: Cell<u64> = const { Cell::new(0) };
    static VICTIMS: Cell<u64> = const { Cell::new(0) };
}

/// Called by `turso_assert!` before it tests its condition.
#[inline(always)]
pub fn count_evaluation(message: &str) {
    if message == LOOK {
        LOOKS.with(|looks| looks.set(looks.get() + 1));
    } else if message == VICTIM {
        VICTIMS.with(|victims| victims.set(victims.get() + 1));
    }
}

/// The pages passed by sweeps on this thread since the last call of this function.
pub fn take_passed() -> u64 {
    LOOKS.with(Cell::take) - VICTIMS.with(Cell::take)
}

/// Panics with the message if the condition fails, in release builds too.
/// The details in braces only go to turso_core's own reports.
macro_rules! turso_assert {
    ($condition:expr, $message:literal $(, { $($details:tt)* })? $(,)?) => {{
        $crate::assert::count_evaluation($message);
        if !$condition {
            panic!($message);
        }
    }};
}
pub(crate) use turso_assert;

/// Fails to compile unless the type may be sent and shared between threads.
macro_rules! assert_send_sync {
    ($type:ty) => {
        const _: fn() = || {
            fn send_and_sync<T: Send + Sync>() {}
            send_and_sync::<$type>();
        };
    };
}
pub(crate) use assert_send_sync;
