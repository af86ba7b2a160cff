//! Demand 3's list with text read and written in it (A4): the facts after every
//! call, agreement with the slow machine, refusals that change nothing.

mod slow;

use reference::audit::{self, Verdict};
use reference::call::{Call, Reply};
use reference::generate::follower::Follower;
use reference::generate::rng::Rng;
use reference::generate::sound::{any_call, random_mix};
use reference::generate::texts::random;
use reference::store::Store;
use reference::table::*;
use reference::text_call::TextCall;

/// How many calls were accepted (0) or refused (1 to 14), of reading, of
/// writing, and of all others.
type Replies = [[usize; 15]; 3];

struct Run {
    follower: Follower,
    holds: slow::Holds,
    replies: Replies,
}

impl Run {
    fn call(&mut self, call: Call) {
        let before = self.follower.store.clone();
        let reply = self.follower.perform(call);
        let mut plain = before.clone();
        assert_eq!(reply, slow::perform(&mut plain, call), "{call:?}");
        assert_eq!(self.follower.store, plain, "{call:?} on {before:?}");
        self.holds.note(call, reply);
        self.replies[2][match reply {
            Reply::Refused(refusal) => refusal as usize,
            _ => 0,
        }] += 1;
        self.check();
    }

    fn read(&mut self, text: &[u8]) {
        let before = self.follower.store.clone();
        let reply = self.follower.perform_text(&TextCall::Read(text.to_vec()));
        let mut plain = before.clone();
        let value = reply.value.map_err(|refusal| refusal as u8);
        assert_eq!(value, slow::text::read(&mut plain, text), "{text:?}");
        assert_eq!(self.follower.store, plain, "{text:?} on {before:?}");
        match value {
            Ok(word) => self.holds.note_read(word as u16),
            Err(_) => assert_eq!(self.follower.store, before),
        }
        self.replies[0][value.map_or_else(usize::from, |_| 0)] += 1;
        self.check();
    }

    fn write(&mut self, word: u16, length: usize, fill: u8) {
        let before = self.follower.store.clone();
        let call = TextCall::Write { word, length, fill };
        let reply = self.follower.perform_text(&call);
        let mut buffer = vec![fill; length];
        let value = reply.value.map_err(|refusal| refusal as u8);
        assert_eq!(value, slow::text::write(&before, word, &mut buffer));
        assert_eq!(reply.buffer, Some(buffer));
        assert_eq!(self.follower.store, before);
        self.replies[1][value.map_or_else(usize::from, |_| 0)] += 1;
        self.check();
    }

    /// The facts, and that holds are what the caller may go by.
    fn check(&mut self) {
        let store = &self.follower.store;
        slow::check_facts(store, &self.holds).unwrap_or_else(|broken| panic!("{broken}"));
        let mut work = vec![7; store.table[0] as usize];
        let verdict = audit::audit(&store.table, &store.queue, &mut work);
        assert_eq!(verdict, Ok(Verdict::Sound));
        // A5: from fresh no clipped reading gets into a cell.
        assert!(!slow::contains_clipped(store), "{store:?}");
    }
}

fn run(rng: &mut Rng, max_cells: u16, calls: usize, replies: &mut Replies) {
    let mut store = Store::zeroed(length(max_cells) + rng.below(3), max_cells as usize);
    store.table.fill_with(|| rng.word());
    let mut run = Run {
        follower: Follower::new(store),
        holds: slow::Holds::default(),
        replies: *replies,
    };
    run.call(Call::Fresh(rng.within(1, max_cells)));
    let mix = random_mix(rng);
    for _ in 0..calls {
        let cells = run.follower.cells();
        match rng.below(10) {
            0..=2 => {
                let depth = 1 + rng.below(4);
                let text = match rng.below(12) {
                    0..=2 => random::broken(rng, depth),
                    3 => format!("{}{}", "(".repeat(33), ")".repeat(33)).into_bytes(),
                    _ => random::text(rng, depth),
                };
                run.read(&text);
            }
            3 | 4 => {
                let word = match rng.below(5) {
                    0 => run.follower.illegal_word(rng),
                    1 => rng.within(0, cells),
                    _ => run.follower.operand(rng),
                };
                let length = rng.pick(&[0, 1, 2, 5, 8, 20, 31, 32, 33, 60, 200]);
                run.write(word, length, rng.word() as u8);
            }
            5 => run.call(any_call(rng, cells)),
            _ => {
                let call = run.follower.lively_call(rng, mix);
                run.call(call);
            }
        }
    }
    *replies = run.replies;
}

#[test]
fn facts_hold_with_text_among_the_calls() {
    let mut rng = Rng::new(1);
    let mut replies = Replies::default();
    for _ in 0..120 {
        run(&mut rng, 12, 150, &mut replies);
    }
    for _ in 0..5 {
        run(&mut rng, 70, 400, &mut replies);
    }
    println!("{replies:?}");
    for number in [0, 7, 8, 11, 12, 14] {
        assert!(replies[0][number] > 10, "read {number}: {replies:?}");
    }
    for number in [0, 4, 6, 12, 13] {
        assert!(replies[1][number] > 10, "written {number}: {replies:?}");
    }
    assert_eq!(replies[1][14], 0, "{replies:?}");
    assert!(replies[2][14] > 10, "{replies:?}");
}
