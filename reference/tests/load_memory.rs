//! The load program's memory: no call allocates, and no input, however long,
//! makes it grow.

use std::alloc::{GlobalAlloc, Layout, System};
use std::cell::Cell;
use std::io::{self, Read};

use reference::load;

/// How many allocations there were, and of how many bytes together.
type Cost = (usize, usize);

thread_local! {
    /// Of this thread alone, since the test harness has threads of its own.
    static COST: Cell<Cost> = const { Cell::new((0, 0)) };
}

struct Counting;

// As safe as the system's allocator, to which it passes everything on.
unsafe impl GlobalAlloc for Counting {
    unsafe fn alloc(&self, layout: Layout) -> *mut u8 {
        let (number, bytes) = COST.get();
        COST.set((number + 1, bytes + layout.size()));
        unsafe { System.alloc(layout) }
    }

    unsafe fn dealloc(&self, block: *mut u8, layout: Layout) {
        unsafe { System.dealloc(block, layout) }
    }
}

#[global_allocator]
static ALLOCATOR: Counting = Counting;

fn cost(input: impl Read) -> Cost {
    let before = COST.get();
    load::run(input, io::sink()).unwrap();
    let after = COST.get();
    (after.0 - before.0, after.1 - before.1)
}

#[test]
fn calls_allocate_nothing() {
    let none = cost(&b"408858366 3 0"[..]);
    assert!((1..=4).contains(&none.0), "{none:?}");
    for input in ["408858366 3 65535", "1 1 65535\n", "7 64 10000", "0 0 9999"] {
        assert_eq!(cost(input.as_bytes()).0, none.0, "{input}");
    }
}

#[test]
fn long_inputs_are_not_kept() {
    let long = cost(io::repeat(b'7').take(100_000_000));
    assert!(long.0 <= 4 && long.1 < 1_000, "{long:?}");
}
