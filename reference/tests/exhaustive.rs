//! Every short list of calls on a store of two cells: both machines agree and
//! the facts of demand 3 hold after each call.

mod slow;

use reference::call::{Call, Reply};
use reference::store::Store;
use reference::table::length;

fn all_calls() -> Vec<Call> {
    let words = [0, 1, 2, 32_768, 36_863];
    let mut calls = vec![Call::Step];
    for x in words {
        calls.extend([Call::Car(x), Call::Cdr(x), Call::Up(x, 1), Call::Down(x, 1)]);
        for y in words {
            calls.extend([
                Call::Cons(x, y),
                Call::ReplaceLeft(x, y),
                Call::ReplaceRight(x, y),
            ]);
        }
    }
    calls
}

/// Goes through all lists of up to `depth` more calls; a refused or idle call
/// and a read of nil change nothing and so lead to no new store.
fn explore(store: &Store, made: &mut Vec<(Call, Reply)>, depth: usize) -> usize {
    let mut tried = 0;
    for call in all_calls() {
        let (mut fast, mut plain) = (store.clone(), store.clone());
        let reply = call.perform(&mut fast);
        assert_eq!(reply, slow::perform(&mut plain, call), "{made:?} {call:?}");
        assert_eq!(fast, plain, "{made:?} {call:?}");
        tried += 1;
        if matches!(reply, Reply::Refused(_) | Reply::Idle) {
            assert_eq!(fast, *store);
            assert!(!matches!(call, Call::Car(0) | Call::Cdr(0)), "{made:?}");
            continue;
        }
        made.push((call, reply));
        let mut holds = slow::Holds::default();
        for &(call, reply) in made.iter() {
            holds.note(call, reply);
        }
        slow::check_facts(&fast, &holds).unwrap_or_else(|broken| panic!("{broken}: {made:?}"));
        if matches!(call, Call::Car(0) | Call::Cdr(0)) {
            assert_eq!((reply, &fast), (Reply::Done(0), store), "{made:?}");
        } else if depth > 1 {
            tried += explore(&fast, made, depth - 1);
        }
        made.pop();
    }
    tried
}

fn explore_fresh(depth: usize) -> usize {
    let mut store = Store::zeroed(length(2), 2);
    let reply = Call::Fresh(2).perform(&mut store);
    explore(&store, &mut vec![(Call::Fresh(2), reply)], depth)
}

#[test]
fn all_lists_of_four_calls() {
    explore_fresh(4);
}

#[test]
#[ignore = "long: DEPTH sets how many calls a list has"]
fn all_longer_lists() {
    let depth = std::env::var("DEPTH").map_or(6, |text| text.parse().unwrap());
    println!("calls tried: {}", explore_fresh(depth));
}
