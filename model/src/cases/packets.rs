//! K1, "A Pup door": packets, their refusals, and what Store and Fetch do.

use super::*;

/// Every type of packet.
pub const TYPES: [u8; 4] = [STORE, FETCH, GO, GO_REPLY];

/// A request of host 254 to process 2 without arguments.
pub fn to(g: &mut Gateway, cmd: u8) -> i64 {
    g.ask(PUP_HOST, cmd, 2, 0, 0, &[])
}

/// Process 2 alone, with the door, of this size, debugged by host 254.
pub fn sized(size: u16) -> Gateway {
    let mut g = Gateway::with_door(1 << 2, &[size; PROCESSES], 2);
    assert_eq!(to(&mut g, DEBUG), 10);
    g
}

/// The same of 4,096 bytes, stopped.
pub fn stopped() -> Gateway {
    let mut g = sized(4096);
    assert_eq!(to(&mut g, STOP), 10);
    g
}

/// A packet that is refused with this number: nothing is written and nothing changes.
#[track_caller]
pub fn refused(g: &mut Gateway, kind: impl Into<u64>, id: u64, words: &[u16], number: i64) {
    let before = (g.state.clone(), g.memory.clone());
    assert_eq!(g.packet(kind, id, words), -number);
    assert!(g.acked(0).is_empty());
    assert!(before == (g.state.clone(), g.memory.clone()));
}

/// The words of a granted packet's acknowledgement.
#[track_caller]
pub fn acked(g: &mut Gateway, kind: u8, words: &[u16]) -> Vec<u16> {
    let count = g.packet(kind, 7u64, words);
    assert!(count >= 0, "{count}");
    g.acked(count as usize).to_vec()
}

// ---------------------------------------------------------------- the order of tests

/// A state that is not sound.
fn unsound() -> Gateway {
    let mut g = sized(4096);
    g.process().set = 1;
    g
}

#[test]
fn k1_test_1_asks_35_words() {
    for kind in [0, 128, 129, 130, 131, 132] {
        let mut g = unsound();
        let Gateway { state, memory, .. } = &mut g;
        let mut ack = [UNTOUCHED_WORD; ACK_WORDS];
        assert_eq!(ACK_WORDS, 35);
        assert_eq!(packet(state, memory, kind, 1 << 32, &[], &mut ack[..34]), -1);
        assert_eq!(packet(state, memory, kind, 1 << 32, &[], &mut []), -1);
        assert_eq!(packet(state, &mut memory[1..], kind, 1 << 32, &[], &mut ack), -1);
        assert_eq!(packet(state, &mut [], kind, 1 << 32, &[], &mut ack), -1);
        assert_eq!(packet(state, &mut [0; MEMORY + 1], kind, 1 << 32, &[], &mut ack), -1);
        assert_eq!(packet(state, memory, kind, 1 << 32, &[], &mut ack), -2);
        assert_eq!(ack, [UNTOUCHED_WORD; ACK_WORDS]);
    }
    // 35 are enough for every packet, and 266 bytes are not asked
    let mut g = stopped();
    let mut ack = [UNTOUCHED_WORD; ACK_WORDS];
    for (kind, count) in [(STORE, 35), (FETCH, 35), (GO, 0), (GO_REPLY, 0)] {
        let (state, memory) = (&mut g.state, &mut g.memory);
        assert_eq!(packet(state, memory, kind.into(), 9, &[0, 0, 256], &mut ack), count);
    }
}

/// "2; 3 too few data words, 5 another type, 7 to 10 as for requests"
#[test]
fn k1_the_order_of_a_packets_tests() {
    // 2 before 3, 5 and all others
    for (kind, words) in [(STORE, &[][..]), (FETCH, &[]), (GO, &[]), (GO_REPLY, &[]), (9, &[])] {
        refused(&mut unsound(), kind, 1 << 32, words, 2);
    }
    // 3 before 7 (no door) and all others; an ID of more than 32 bits is of no type, which has no fewest words
    let mut g = Gateway::new(1 << 2);
    for words in [&[][..], &[65_535]] {
        refused(&mut g, STORE, 0xffff_ffff, words, 3);
        refused(&mut g, STORE, 1 << 32, words, 5);
    }
    refused(&mut g, FETCH, 0xffff_ffff, &[], 3);
    refused(&mut g, FETCH, 1 << 32, &[], 5);
    // 5 before 7
    for (kind, words) in [(STORE, &[65_535, 0][..]), (FETCH, &[65_535]), (GO, &[]), (GO_REPLY, &[])]
    {
        refused(&mut g, kind, 1 << 32, words, 5);
        refused(&mut g, kind, u64::MAX, words, 5);
        // 7 before 8: nobody debugs what is not there
        refused(&mut g, kind, 0xffff_ffff, words, 7);
    }
    // 8 before 9 and 10: a stranger with a running process and a bad address
    let mut g = Gateway::with_door(1 << 2, &FULL, 2);
    for host in [NOBODY, 5] {
        if host == 5 {
            assert_eq!(g.ask(5, DEBUG, 2, 0, 0, &[]), 10);
        }
        for kind in TYPES {
            refused(&mut g, kind, 1, &[65_535, 0], 8);
        }
    }
    // 9 of a Go, 10 of Store and Fetch
    let mut g = sized(4096);
    refused(&mut g, GO, 1, &[65_535], 9);
    refused(&mut g, STORE, 1, &[65_535, 0], 10);
    refused(&mut g, FETCH, 1, &[65_535], 10);
    // "a GoReply only to 8"
    assert_eq!(g.packet(GO_REPLY, 1u64, &[65_535]), 0);
}

#[test]
fn k1_types() {
    assert_eq!([STORE, FETCH, GO, GO_REPLY, ACK], [128, 129, 130, 131, 132]);
    let mut g = stopped();
    for kind in (0..256u64).chain([256 + 128, 256 + 129, 65_536 + 130, (1 << 32) + 131, u64::MAX]) {
        if (128..=131).contains(&kind) {
            assert!(g.packet(kind, 1u64, &[0, 0]) >= 0, "{kind}");
        } else {
            // only known types have a fewest
            refused(&mut g, kind, 1, &[], 5);
            refused(&mut g, kind, 1, &[0, 0, 0], 5);
        }
    }
}

/// "3 too few data words": "as little as 2 (fetch) or 4 (store) bytes"
#[test]
fn k1_data_words() {
    let mut g = stopped();
    g.memory[..4].copy_from_slice(&[1, 2, 3, 4]);
    refused(&mut g, STORE, 1, &[], 3);
    refused(&mut g, STORE, 1, &[0], 3);
    refused(&mut g, FETCH, 1, &[], 3);
    assert_eq!(acked(&mut g, FETCH, &[0]), [0, 0x0201]);
    assert_eq!(acked(&mut g, FETCH, &[1, 9]), [1, 0x0403]);
    assert_eq!(acked(&mut g, FETCH, &[1, 9, 0]), [1, 0x0403]);
    assert_eq!(acked(&mut g, STORE, &[1, 9]), [1, 0]);
    assert_eq!(acked(&mut g, STORE, &[1, 9, 0]), [1, 0]);
    // more are passed over, in a Go and a GoReply too
    let many = [1, 9, 1, 70, 71, 72, 73];
    assert_eq!(acked(&mut g, FETCH, &many), [1, 9, 1, 9]);
    assert_eq!(acked(&mut g, STORE, &many), [1, 0, 1, 9]);
    assert_eq!(acked(&mut g, FETCH, &[1; 64]), [1, 9, 1, 9]);
    assert_eq!(acked(&mut g, GO, &many), []);
    assert_eq!(g.packet(GO_REPLY, 8u64, &many), 0);
    assert_eq!(g.process().run, Run::Running);
}

// ---------------------------------------------------------------- words and addresses

/// "word address a is seen bytes 2a and 2a + 1, low first"
#[test]
fn k1_store_and_fetch() {
    let mut g = stopped();
    g.memory.fill(77);
    assert_eq!(acked(&mut g, STORE, &[3, 0x1234]), [3, 0]);
    assert_eq!(g.memory[5..9], [77, 0x34, 0x12, 77]);
    assert_eq!(acked(&mut g, FETCH, &[3]), [3, 0x1234]);
    assert_eq!(acked(&mut g, FETCH, &[2]), [2, 0x4d4d]);
    assert_eq!(g.ask(PUP_HOST, EXAMINE, 2, 6, 2, &[]), 12);
    assert_eq!(g.written(12)[10..], [0x34, 0x12]);
    assert_eq!(g.ask(PUP_HOST, DEPOSIT, 2, 7, 1, &[0xab]), 10);
    assert_eq!(acked(&mut g, FETCH, &[3]), [3, 0xab34]);
    // in every run state, with no change to it, and nothing else of the record changes
    for run in Run::ALL {
        g.process().run = run;
        let before = g.state.clone();
        assert_eq!(acked(&mut g, STORE, &[4, 1]), [4, 0]);
        assert_eq!(acked(&mut g, FETCH, &[4]), [4, 1]);
        assert_eq!(g.state, before);
    }
}

/// "a at most 2,047"; K2: "10 reads against the size"
#[test]
fn k1_the_last_word() {
    for size in [2, 4, 1536, 4094, 4096] {
        let mut g = sized(size);
        let last = size / 2 - 1;
        g.memory.fill(77);
        assert_eq!(acked(&mut g, STORE, &[last, 0x1234, 256])[..2], [last, 0]);
        assert_eq!(acked(&mut g, FETCH, &[last]), [last, 0x1234]);
        assert_eq!(g.memory[usize::from(size)], 77);
        for past in [last + 1, last + 2, 2048, 4096, 0x7fff, 0x8000, 0x8000 + last, 65_535] {
            for asked in [0, 1, 32, 256, 3] {
                refused(&mut g, STORE, 1, &[past, 0x1234, asked], 10);
                refused(&mut g, FETCH, 1, &[past, 0, asked], 10);
            }
        }
    }
}

/// A process that does not lie at byte 0, with neighbours.
#[test]
fn k1_a_process_among_others() {
    let mut g = Gateway::with_door(0b1110, &[0, 100, 6, 100, 0, 0, 0, 0], 2);
    g.memory.fill(77);
    assert_eq!(to(&mut g, DEBUG), 10);
    for a in 0..3 {
        assert_eq!(acked(&mut g, STORE, &[a, a + 1]), [a, 0]);
    }
    refused(&mut g, STORE, 1, &[3, 9], 10);
    assert_eq!(g.memory[98..108], [77, 77, 1, 0, 2, 0, 3, 0, 77, 77]);
    assert_eq!(acked(&mut g, FETCH, &[1, 0, 32]), [1, 2, 2, 1, 2]);
    // it moves when the one below goes
    assert_eq!(g.ask(5, DEBUG, 1, 0, 0, &[]), 10);
    assert_eq!(g.ask(5, DESTROY_PROCESS, 1, 0, 0, &[]), 10);
    assert_eq!(acked(&mut g, FETCH, &[2]), [2, 3]);
    assert_eq!(acked(&mut g, STORE, &[2, 9, 2]), [2, 0, 1, 9]);
    assert_eq!(g.memory[..6], [1, 0, 2, 0, 9, 0]);
}

// ---------------------------------------------------------------- planted words

/// "A byte under a planted breakpoint goes to the saved word."
#[test]
fn k1_a_planted_word_is_not_seen() {
    let mut g = stopped();
    g.store(256, [18, 52]);
    assert_eq!(g.ask(PUP_HOST, BREAK, 2, 256, 0, &[]), 10);
    assert_eq!(acked(&mut g, FETCH, &[128]), [128, 0x3412]);
    assert_eq!(acked(&mut g, FETCH, &[129, 0, 2]), [129, 0, 2, 0x3412, 0]);
    // a store by the machine there is not seen
    g.store(256, [70, 71]);
    assert_eq!(acked(&mut g, FETCH, &[128]), [128, 0x3412]);
    // "The block should reflect the result of the store."
    assert_eq!(acked(&mut g, STORE, &[128, 0x0908, 4]), [128, 0, 4, 0x0908, 0, 0, 0]);
    assert_eq!(g.held(256), [70, 71]);
    assert_eq!(g.process().breakpoints[0].saved, [8, 9]);
    assert_eq!(g.ask(PUP_HOST, UNBREAK, 2, 256, 0, &[]), 10);
    assert_eq!(g.held(256), [8, 9]);
}

#[test]
fn k1_a_lifted_word_is_in_memory() {
    let mut g = stopped();
    g.store(256, [18, 52]);
    assert_eq!(g.ask(PUP_HOST, BREAK, 2, 256, 0, &[]), 10);
    assert_eq!(to(&mut g, RESUME), 10);
    assert_eq!(g.report(2, BPT, 0, 256), 28);
    assert_eq!(to(&mut g, PROCEED_BPT), 10);
    assert_eq!(acked(&mut g, STORE, &[128, 0x0908, 1]), [128, 0, 1, 0x0908]);
    assert_eq!(g.held(256), [8, 9]);
    assert_eq!(g.process().breakpoints[0].saved, [18, 52]);
    assert_eq!(g.report(2, TTRAP, 0, 258), 0);
    assert_eq!(acked(&mut g, FETCH, &[128]), [128, 0x0908]);
}

/// Eight planted words within one block, one of them stored.
#[test]
fn k1_a_block_of_planted_words() {
    let mut g = stopped();
    for a in 0..16u16 {
        assert_eq!(acked(&mut g, STORE, &[a, 1000 + a]), [a, 0]);
    }
    for a in 0..8 {
        assert_eq!(g.ask(PUP_HOST, BREAK, 2, 4 * a, 0, &[]), 10);
    }
    let mut seen: Vec<u16> = (1000..1016).collect();
    assert_eq!(acked(&mut g, FETCH, &[4, 0, 16])[3..], seen);
    seen[6] = 9;
    assert_eq!(acked(&mut g, STORE, &[6, 9, 16])[3..], seen);
    seen[7] = 8;
    assert_eq!(acked(&mut g, STORE, &[7, 8, 16])[3..], seen);
    for a in 0..8 {
        assert_eq!(g.held(4 * a), BPT_WORD);
    }
    assert_eq!(to(&mut g, END_DEBUG), 10);
    let bytes: Vec<u8> = seen.iter().flat_map(|word| word.to_le_bytes()).collect();
    assert_eq!(g.memory[..32], bytes);
}

// ---------------------------------------------------------------- who may

/// K5: "A watcher may EXAMINE, Fetch, BREAK and UNBREAK."
#[test]
fn k1_a_watchers_fetch() {
    let mut g = Gateway::with_door(1 << 2, &FULL, 2);
    g.store(6, [1, 2]);
    assert_eq!(g.ask(5, DEBUG, 2, 0, 0, &[]), 10);
    assert_eq!(g.ask(5, STOP, 2, 0, 0, &[]), 10);
    assert_eq!(to(&mut g, WATCH), 10);
    assert_eq!(acked(&mut g, FETCH, &[3]), [3, 0x0201]);
    assert_eq!(acked(&mut g, FETCH, &[2, 0, 2]), [2, 0, 2, 0, 0x0201]);
    refused(&mut g, FETCH, 1, &[2048], 10);
    for kind in [STORE, GO, GO_REPLY] {
        refused(&mut g, kind, 1, &[3, 9], 8);
        refused(&mut g, kind, 1, &[2048, 9], 8);
    }
    assert_eq!(to(&mut g, END_WATCH), 10);
    refused(&mut g, FETCH, 1, &[3], 8);
    // another host's watch gives host 254 nothing, and takes nothing from it
    assert_eq!(g.ask(6, WATCH, 2, 0, 0, &[]), 10);
    refused(&mut g, FETCH, 1, &[3], 8);
    let mut g = stopped();
    assert_eq!(g.ask(5, WATCH, 2, 0, 0, &[]), 10);
    for kind in TYPES {
        assert!(g.packet(kind, 1u64, &[3, 9]) >= 0);
    }
}

/// The ID of a Store or a Fetch plays no part but that it has 32 bits.
#[test]
fn k1_any_id() {
    let mut g = stopped();
    for id in [0u32, 1, 255, 65_536, 0x7fff_ffff, 0x8000_0000, 0xffff_ffff] {
        assert_eq!(g.packet(STORE, id, &[3, 9, 1]), 4);
        assert_eq!(g.packet(FETCH, id, &[3]), 2);
        assert_eq!(g.acked(2), [3, 9]);
    }
    for kind in TYPES {
        for id in [1 << 32, (1 << 32) + 1, 1 << 40, u64::MAX] {
            refused(&mut g, kind, id, &[3, 9], 5);
        }
    }
}
