//! Calls on any table, queue and scratch: each ends, leaves the words past the
//! cells alone, and changes nothing where it refuses. A read of nil is decided.

mod slow;

use reference::call::{Call, Reply};
use reference::generate::rng::Rng;
use reference::generate::sound::any_call;
use reference::question::Refusal;
use reference::queue::Queue;
use reference::store::Store;
use reference::table::length;

/// Garbage, most of which passes question 1.
fn any_store(rng: &mut Rng) -> Store {
    let cells = rng.within(1, 6);
    let mut store = Store::zeroed(length(cells) + rng.below(3), cells as usize + rng.below(2));
    let limit = rng.pick(&[3, 8, 5_000, 65_535]);
    let mut word = || rng.within(0, limit);
    store.table.fill_with(&mut word);
    store.scratch.fill_with(&mut word);
    for slot in 0..Queue::SLOTS {
        store.queue.kinds[slot] = word() % 8;
        store.queue.a[slot] = word();
        store.queue.b[slot] = word();
        store.queue.c[slot] = word();
    }
    store.queue.place = word() % 65;
    store.queue.count = word() % 66;
    if !rng.one_in(8) {
        store.table[0] = cells;
        store.table[1] %= cells + 1;
        store.table[2] %= cells + 1;
    }
    store
}

#[test]
fn calls_end_on_any_store() {
    let mut rng = Rng::new(1);
    for _ in 0..200_000 {
        let mut store = any_store(&mut rng);
        let call = any_call(&mut rng, 6);
        let before = store.clone();
        let reply = call.perform(&mut store);
        if matches!(reply, Reply::Refused(_)) {
            assert_eq!(store, before, "{call:?}");
            continue;
        }
        let cells = match call {
            Call::Fresh(cells) => cells,
            _ => before.table[0],
        };
        let past = length(cells);
        assert_eq!(store.table[past..], before.table[past..], "{call:?}");
        assert_eq!(store.table.len(), before.table.len());
        if matches!(call, Call::Audit) {
            assert_eq!(store.table, before.table);
            assert_eq!(store.queue, before.queue);
            assert!(store.scratch[..cells as usize]
                .iter()
                .all(|&word| word == 0));
        }
        let rest = match call {
            Call::Step | Call::Audit => cells as usize,
            _ => 0,
        };
        assert_eq!(store.scratch[rest..], before.scratch[rest..], "{call:?}");
    }
}

/// Question 1 alone decides a read of nil, whatever else is wrong.
#[test]
fn nil_reads_are_decided_on_any_store() {
    let mut rng = Rng::new(2);
    let (mut damaged, mut damaged_and_full, mut refused) = (0, 0, 0);
    for _ in 0..50_000 {
        let before = any_store(&mut rng);
        for call in [Call::Car(0), Call::Cdr(0)] {
            let (mut fast, mut plain) = (before.clone(), before.clone());
            let reply = call.perform(&mut fast);
            assert_eq!(reply, slow::perform(&mut plain, call), "{before:?}");
            assert_eq!((&fast, &plain), (&before, &before), "{call:?}");
            if reply == Reply::Refused(Refusal::Store) {
                refused += 1;
                continue;
            }
            assert_eq!(reply, Reply::Done(0), "{before:?}");
            if slow::audit(&before).is_some() {
                damaged += 1;
                damaged_and_full += usize::from(before.queue.count == 64);
            }
        }
    }
    let least = damaged.min(refused).min(10 * damaged_and_full);
    assert!(least > 1_000, "{damaged} {damaged_and_full} {refused}");
}
