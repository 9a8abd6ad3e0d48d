//! Rare ways through K1's packets: each number of a refusal and the order of the tests, the
//! edges of a process in words, and the blocks of acknowledgements.

use crate::about::{About, Sent};
use crate::passages::{granted, refused, Passage};
use model::*;
use std::ops::Range;

pub const PACKET_PASSAGES: &[Passage] = &[
    // too few data words, before all that follows
    refused(WRONG_LENGTH, "Store of no words", |a| a.sends(STORE) && a.data_words() == 0),
    refused(WRONG_LENGTH, "Store of one word", |a| {
        a.sends(STORE) && a.data_words() == 1 && a.owner()
    }),
    refused(WRONG_LENGTH, "Fetch of no words", |a| a.sends(FETCH) && a.owner()),
    refused(WRONG_LENGTH, "Fetch of no words by a watcher", |a| a.sends(FETCH) && a.watcher()),
    refused(WRONG_LENGTH, "too few words, the process absent", |a| a.packet() && a.nowhere()),
    refused(WRONG_LENGTH, "too few words and no right", |a| a.packet() && a.stranger()),
    // another type, and an ID of more than 32 bits
    refused(UNKNOWN_CMD, "type 127", |a| a.kind_is(|kind| kind == 127)),
    refused(UNKNOWN_CMD, "type 132", |a| a.kind_is(|kind| kind == 132)),
    refused(UNKNOWN_CMD, "another type without words", |a| !a.known_kind() && a.data_words() == 0),
    refused(UNKNOWN_CMD, "another type, the process absent", |a| !a.known_kind() && a.nowhere()),
    refused(UNKNOWN_CMD, "another type while a Go waits", |a| !a.known_kind() && a.waits()),
    refused(UNKNOWN_CMD, "Store with a wide ID", |a| a.sends(STORE) && a.owner()),
    refused(UNKNOWN_CMD, "Fetch with a wide ID", |a| a.sends(FETCH) && a.owner()),
    refused(UNKNOWN_CMD, "Go with a wide ID", |a| a.sends(GO) && a.owner()),
    refused(UNKNOWN_CMD, "Go with a wide ID, the waiting one in 32 bits", |a| {
        a.sends(GO) && a.waits() && a.id() == a.process.go.id
    }),
    refused(UNKNOWN_CMD, "GoReply with a wide ID", |a| a.sends(GO_REPLY) && a.owner()),
    refused(UNKNOWN_CMD, "GoReply with a wide ID, the next in 32 bits", |a| {
        a.sends(GO_REPLY) && a.answered()
    }),
    refused(UNKNOWN_CMD, "a wide ID, the process absent", |a| a.known_kind() && a.nowhere()),
    refused(UNKNOWN_CMD, "a wide ID and no right", |a| a.known_kind() && a.stranger()),
    // the door's process is not there
    refused(ABSENT, "Store, the process absent", |a| a.sends(STORE) && a.pid < 8),
    refused(ABSENT, "Fetch, the process absent", |a| a.sends(FETCH) && a.pid < 8),
    refused(ABSENT, "Go, the process absent", |a| a.sends(GO) && a.pid < 8),
    refused(ABSENT, "GoReply, the process absent", |a| a.sends(GO_REPLY) && a.pid < 8),
    refused(ABSENT, "Store, the door over 7", |a| a.sends(STORE) && a.pid > 7),
    refused(ABSENT, "Fetch, the door over 7", |a| a.sends(FETCH) && a.pid > 7),
    refused(ABSENT, "Go, the door over 7", |a| a.sends(GO) && a.pid > 7),
    refused(ABSENT, "GoReply, the door over 7", |a| a.sends(GO_REPLY) && a.pid > 7),
    refused(ABSENT, "a packet, the door over 7, as three bits at a process of 254", |a| {
        a.packet() && a.pid > 7 && a.process.host == PUP_HOST
    }),
    refused(ABSENT, "a packet, the door at none", |a| a.packet() && a.pid == NO_DOOR),
    // no right
    refused(NO_RIGHT, "Store, nobody debugs it", |a| a.sends(STORE) && a.hostless()),
    refused(NO_RIGHT, "Fetch, nobody debugs it", |a| a.sends(FETCH) && a.hostless()),
    refused(NO_RIGHT, "Go, nobody debugs it", |a| a.sends(GO) && a.hostless()),
    refused(NO_RIGHT, "GoReply, nobody debugs it", |a| a.sends(GO_REPLY) && a.hostless()),
    refused(NO_RIGHT, "Store, another debugs it", |a| a.sends(STORE) && !a.hostless()),
    refused(NO_RIGHT, "Fetch, another debugs it", |a| a.sends(FETCH) && !a.hostless()),
    refused(NO_RIGHT, "Go, another debugs it", |a| a.sends(GO) && !a.hostless()),
    refused(NO_RIGHT, "GoReply, another debugs it", |a| a.sends(GO_REPLY) && !a.hostless()),
    refused(NO_RIGHT, "Store by the watcher", |a| a.sends(STORE) && a.watcher()),
    refused(NO_RIGHT, "Go by the watcher", |a| a.sends(GO) && a.watcher()),
    refused(NO_RIGHT, "GoReply by the watcher", |a| a.sends(GO_REPLY) && a.watcher()),
    refused(NO_RIGHT, "Fetch outside without a right", |a| a.sends(FETCH) && a.outside()),
    refused(NO_RIGHT, "Store outside without a right", |a| a.sends(STORE) && a.outside()),
    refused(NO_RIGHT, "Go of a process that runs without a right", |a| {
        a.sends(GO) && !a.process.run.waits()
    }),
    refused(NO_RIGHT, "Fetch, a third watches", |a| a.sends(FETCH) && a.watched() && !a.watcher()),
    refused(NO_RIGHT, "a packet, host 254 debugs another process", |a| {
        a.packet() && a.state.processes.iter().any(|p| p.host == PUP_HOST)
    }),
    // the edges of a process
    granted("Fetch of the last word", |a| a.sends(FETCH) && a.end() == a.size()),
    granted("Store into the last word", |a| a.sends(STORE) && a.end() == a.size()),
    granted("Fetch of word 2,047", |a| a.sends(FETCH) && a.first == 4094),
    granted("Store into word 2,047", |a| a.sends(STORE) && a.first == 4094),
    granted("Fetch of word 0", |a| a.sends(FETCH) && a.first == 0),
    granted("Fetch of the only word", |a| a.sends(FETCH) && a.size() == 2),
    granted("Store into the only word", |a| a.sends(STORE) && a.size() == 2),
    refused(OUTSIDE, "Fetch after the last word", |a| a.sends(FETCH) && a.first == a.size()),
    refused(OUTSIDE, "Store after the last word", |a| a.sends(STORE) && a.first == a.size()),
    refused(OUTSIDE, "Fetch of word 2,048", |a| a.sends(FETCH) && a.first == 4096),
    refused(OUTSIDE, "Fetch inside if it is a byte's address", |a| {
        a.sends(FETCH) && a.first / 2 < a.size()
    }),
    refused(OUTSIDE, "Fetch inside if it is doubled in 16 bits", |a| {
        a.sends(FETCH) && a.first % 65_536 + 2 <= a.size()
    }),
    refused(OUTSIDE, "Store inside if it is doubled in 16 bits", |a| {
        a.sends(STORE) && a.first % 65_536 + 2 <= a.size()
    }),
    refused(OUTSIDE, "Fetch of word 65,535", |a| a.sends(FETCH) && a.first == 131_070),
    refused(OUTSIDE, "Fetch outside by the watcher", |a| a.sends(FETCH) && a.watcher()),
    refused(OUTSIDE, "Fetch outside with a block", |a| {
        a.sends(FETCH) && a.asked_block() == Some(32)
    }),
    granted("Fetch in a process that does not begin at 0", |a| {
        a.sends(FETCH) && a.process.begin > 0
    }),
    // how many words, and third words that ask for no block
    granted("Fetch of one word of data", |a| a.sends(FETCH) && a.data_words() == 1),
    granted("Fetch of two words of data", |a| a.sends(FETCH) && a.data_words() == 2),
    granted("Store of two words of data", |a| a.sends(STORE) && a.data_words() == 2),
    granted("Fetch of more words of data", |a| a.sends(FETCH) && a.data_words() > 3),
    granted("Store of more words of data", |a| a.sends(STORE) && a.data_words() > 3),
    granted("Go with data", |a| a.sends(GO) && a.data_words() > 0),
    granted("GoReply with data", |a| a.sends(GO_REPLY) && a.data_words() > 0),
    granted("Fetch, third word 0", |a| a.sends(FETCH) && a.no_block(|third| third == 0)),
    granted("Store, third word 0", |a| a.sends(STORE) && a.no_block(|third| third == 0)),
    granted("a third word of 3 to 31", |a| a.no_block(|third| (3..32).contains(&third))),
    granted("a third word of 33 to 255", |a| a.no_block(|third| (33..256).contains(&third))),
    granted("a third word of 257", |a| a.no_block(|third| third == 257)),
    granted("a third word of 512 and more, a power of two", |a| {
        a.no_block(|third| third.is_power_of_two())
    }),
    // blocks, by what is asked and what is sent
    granted("Fetch, a block of 1", |a| a.sends(FETCH) && a.sent() == Some((1, 1))),
    granted("Fetch, a block of 2", |a| a.sends(FETCH) && a.sent() == Some((2, 2))),
    granted("Fetch, a block of 4", |a| a.sends(FETCH) && a.sent() == Some((4, 4))),
    granted("Fetch, a block of 8", |a| a.sends(FETCH) && a.sent() == Some((8, 8))),
    granted("Fetch, a block of 16", |a| a.sends(FETCH) && a.sent() == Some((16, 16))),
    granted("Fetch, a block of 32", |a| a.sends(FETCH) && a.sent() == Some((32, 32))),
    granted("Fetch, 32 of 64", |a| a.sends(FETCH) && a.sent() == Some((64, 32))),
    granted("Fetch, 32 of 128", |a| a.sends(FETCH) && a.sent() == Some((128, 32))),
    granted("Fetch, 32 of 256", |a| a.sends(FETCH) && a.sent() == Some((256, 32))),
    granted("Store, a block of 1", |a| a.sends(STORE) && a.sent() == Some((1, 1))),
    granted("Store, a block of 2", |a| a.sends(STORE) && a.sent() == Some((2, 2))),
    granted("Store, a block of 4", |a| a.sends(STORE) && a.sent() == Some((4, 4))),
    granted("Store, a block of 8", |a| a.sends(STORE) && a.sent() == Some((8, 8))),
    granted("Store, a block of 16", |a| a.sends(STORE) && a.sent() == Some((16, 16))),
    granted("Store, a block of 32", |a| a.sends(STORE) && a.sent() == Some((32, 32))),
    granted("Store, 32 of 256", |a| a.sends(STORE) && a.sent() == Some((256, 32))),
    granted("halved to 16", |a| a.halved(16)),
    granted("halved to 8", |a| a.halved(8)),
    granted("halved to 4", |a| a.halved(4)),
    granted("halved to 2", |a| a.halved(2)),
    granted("halved to 1", |a| a.halved(1)),
    granted("halved of 256 asked", |a| a.sent().is_some_and(|s| s.0 == 256 && s.1 < 32)),
    granted("halved of a Store", |a| a.sends(STORE) && (1..32).any(|n| a.halved(n))),
    granted("halved, and the base is another", |a| {
        let (Some((asked, _)), Some(block)) = (a.sent(), a.block()) else { return false };
        let (asked, address) = (usize::from(asked.min(32)), a.first / 2);
        block.len() < asked && address / asked * asked != block.start
    }),
    granted("a block that ends with the process", |a| a.ends_with_process(32)),
    granted("a block before the word asked", |a| a.block().is_some_and(|b| b.start * 2 < a.first)),
    granted("a block that ends with the word asked", |a| {
        a.block().is_some_and(|b| b.len() > 1 && b.end * 2 == a.end())
    }),
    granted("a block that begins with the word asked", |a| {
        a.block().is_some_and(|b| b.len() > 1 && b.start * 2 == a.first)
    }),
    granted("32 of 64, and the base of 64 is another", |a| {
        a.sent() == Some((64, 32)) && a.first / 2 % 64 >= 32
    }),
    // breakpoints
    granted("Fetch of a planted word", |a| a.sends(FETCH) && a.here(Breakpoint::planted)),
    granted("Fetch of one written over", |a| a.sends(FETCH) && a.here(|b| a.written_over(b))),
    granted("Fetch of a lifted word", |a| a.sends(FETCH) && a.here(|b| b.lifted)),
    granted("Store into a planted word", |a| a.sends(STORE) && a.here(Breakpoint::planted)),
    granted("Store into one written over", |a| a.sends(STORE) && a.here(|b| a.written_over(b))),
    granted("Store into a lifted word", |a| a.sends(STORE) && a.here(|b| b.lifted)),
    granted("Store into a planted word, with a block", |a| {
        a.sends(STORE) && a.here(Breakpoint::planted) && a.block().is_some()
    }),
    granted("Store into a planted word of the watcher", |a| {
        a.sends(STORE) && a.here(|b| b.planted() && b.setter != PUP_HOST)
    }),
    granted("a block over a planted word", |a| a.in_block(Breakpoint::planted) > 0),
    granted("a block over three planted words", |a| a.in_block(Breakpoint::planted) > 2),
    granted("a block over one written over", |a| a.in_block(|b| a.written_over(b)) > 0),
    granted("a block over a lifted word", |a| a.in_block(|b| b.lifted) > 0),
    // host 254 watches
    granted("Fetch by the watcher", |a| a.sends(FETCH) && a.watcher()),
    granted("Fetch by the watcher with a block", |a| a.watcher() && a.block().is_some()),
    granted("Fetch by the watcher of a planted word", |a| {
        a.sends(FETCH) && a.watcher() && a.here(Breakpoint::planted)
    }),
    granted("Fetch by host 254 while another watches", |a| {
        a.sends(FETCH) && a.owner() && a.watched()
    }),
    // the run states
    granted("Store, running", |a| a.sends(STORE) && a.runs(Run::Running)),
    granted("Store, stepping", |a| a.sends(STORE) && a.runs(Run::Stepping)),
    granted("Store, at a breakpoint", |a| a.sends(STORE) && a.runs(Run::AtBreakpoint)),
    granted("Store, ended", |a| a.sends(STORE) && a.runs(Run::Ended)),
    granted("Fetch, running", |a| a.sends(FETCH) && a.runs(Run::Running)),
    granted("Fetch, passing", |a| a.sends(FETCH) && a.runs(Run::Passing)),
    granted("Fetch, ended", |a| a.sends(FETCH) && a.runs(Run::Ended)),
];

impl About<'_> {
    fn of_packet(&self, test: impl Fn(Sent) -> bool) -> bool {
        self.packet.is_some_and(test)
    }

    pub fn packet(&self) -> bool {
        self.packet.is_some()
    }

    /// Whether this is a packet of this type.
    pub fn sends(&self, kind: u8) -> bool {
        self.of_packet(|sent| sent.kind == kind.into())
    }

    fn kind_is(&self, test: impl Fn(u64) -> bool) -> bool {
        self.of_packet(|sent| test(sent.kind))
    }

    fn known_kind(&self) -> bool {
        self.packet.is_none() || self.kind_is(|kind| (128..132).contains(&kind))
    }

    /// How many data words the packet has.
    fn data_words(&self) -> usize {
        self.packet.map_or(0, |sent| sent.count)
    }

    /// The packet's ID in 32 bits.
    pub fn id(&self) -> u32 {
        self.packet.map_or(0, |sent| sent.id as u32)
    }

    /// Whether a Go waits.
    pub fn waits(&self) -> bool {
        self.pid < 8 && self.process.go.waits
    }

    /// Whether the packet's ID is the one that the waiting Go is answered with.
    pub fn answered(&self) -> bool {
        self.waits() && self.id() == self.process.go.id.wrapping_add(1)
    }

    /// Whether the door is at no process that is there.
    pub fn nowhere(&self) -> bool {
        self.pid > 7 || !self.process.there
    }

    /// Whether host 254 neither debugs nor watches the process, which is there.
    fn stranger(&self) -> bool {
        !self.nowhere() && !self.owner() && !self.watcher()
    }

    fn outside(&self) -> bool {
        self.end() > self.size()
    }

    fn no_block(&self, test: impl Fn(u16) -> bool) -> bool {
        let looks = self.sends(STORE) || self.sends(FETCH);
        looks
            && self.data_words() > 2
            && self.asked_block().is_none()
            && self.of_packet(|s| test(s.words[2]))
    }

    /// The length of the block that is asked.
    fn asked_block(&self) -> Option<u16> {
        let looks = self.sends(STORE) || self.sends(FETCH);
        let third = self.packet.filter(|sent| looks && sent.count > 2)?.words[2];
        (third.is_power_of_two() && third <= 256).then_some(third)
    }

    /// The words of the block that is sent.
    fn block(&self) -> Option<Range<usize>> {
        let (asked, address) = (self.asked_block()?, self.packet?.words[0]);
        if self.outside() {
            return None;
        }
        let words = block(address, asked, self.process.size)?;
        Some(words.start.into()..words.end.into())
    }

    /// The length asked and the length sent.
    fn sent(&self) -> Option<(u16, u16)> {
        Some((self.asked_block()?, self.block()?.len() as u16))
    }

    /// Whether so many words are sent since no more of those asked are in the process.
    fn halved(&self, to: u16) -> bool {
        self.sent().is_some_and(|(asked, sent)| sent == to && asked.min(32) > to)
    }

    fn ends_with_process(&self, length: usize) -> bool {
        self.block().is_some_and(|b| b.len() == length && 2 * b.end == self.size())
    }

    /// How many such breakpoints are in the block that is sent.
    fn in_block(&self, test: impl Fn(&Breakpoint) -> bool) -> usize {
        let Some(block) = self.block() else { return 0 };
        let inside = |b: &&Breakpoint| b.used() && block.contains(&usize::from(b.address / 2));
        self.process.breakpoints.iter().filter(inside).filter(|b| test(b)).count()
    }
}
