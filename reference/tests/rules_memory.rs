//! The memory of `reference rules`: a line, however long, makes it keep no more,
//! and after each line all is given back.

use std::alloc::{GlobalAlloc, Layout, System};
use std::cell::Cell;
use std::io::{self, BufReader, Read};

use reference::rules;

/// How many bytes are allocated now, and the most that were.
type Bytes = (usize, usize);

thread_local! {
    /// Of this thread alone, since the test harness has threads of its own.
    static BYTES: Cell<Bytes> = const { Cell::new((0, 0)) };
}

struct Counting;

// As safe as the system's allocator, to which it passes everything on.
unsafe impl GlobalAlloc for Counting {
    unsafe fn alloc(&self, layout: Layout) -> *mut u8 {
        let (now, most) = BYTES.get();
        let now = now + layout.size();
        BYTES.set((now, most.max(now)));
        unsafe { System.alloc(layout) }
    }

    unsafe fn dealloc(&self, block: *mut u8, layout: Layout) {
        let (now, most) = BYTES.get();
        BYTES.set((now.saturating_sub(layout.size()), most));
        unsafe { System.dealloc(block, layout) }
    }
}

#[global_allocator]
static ALLOCATOR: Counting = Counting;

/// The most bytes that an input takes, those of its reader left out.
fn most(input: impl Read) -> usize {
    let reader = BufReader::new(input);
    let before = BYTES.get().0;
    BYTES.set((before, before));
    rules::run(reader, io::sink()).unwrap();
    BYTES.get().1 - before
}

#[test]
fn long_lines_are_not_kept() {
    for byte in [b'(', b' ', b'1', b'x'] {
        let long = most(io::repeat(byte).take(50_000_000));
        // A table for 4,096 cells and its scratch take 57,350 bytes.
        assert!(long < 75_000, "{long}");
    }
}

#[test]
fn many_lines_are_not_kept() {
    let line = format!("({})\n", vec!["(1 . 2)"; 32].join(" "));
    let few = most(line.repeat(2).as_bytes());
    let many = most(line.repeat(5_000).as_bytes());
    // Reading makes its conses on a copy of the table.
    assert!(many <= few && few < 130_000, "{few} {many}");
}
