//! Rare ways through K9's rules: sizes that CREATE asks for, and what a DESTROY moves.

use crate::layout::out_of_order;
use crate::passages::{damaged, granted, refused, Passage};
use crate::sizes::SIZES;
use model::*;

pub const LAYOUT_PASSAGES: &[Passage] = &[
    // the sizes of CREATE
    granted("CREATE of 0", |a| a.is(CREATE_PROCESS) && a.first == 0),
    granted("CREATE of 2", |a| a.is(CREATE_PROCESS) && a.first == 2),
    granted("CREATE of 4,094", |a| a.is(CREATE_PROCESS) && a.first == 4094),
    granted("CREATE of 4,096", |a| a.is(CREATE_PROCESS) && a.first == 4096),
    granted("CREATE of a size over 1,024 that is in no list", |a| {
        a.is(CREATE_PROCESS) && a.first > 1024 && !SIZES.contains(&(a.first as u16))
    }),
    refused(WRONG_FIELDS, "CREATE of an odd size", |a| {
        a.is(CREATE_PROCESS) && a.first % 2 == 1 && a.first < 4096 && a.rest_is_right()
    }),
    refused(WRONG_FIELDS, "CREATE of 4,098", |a| {
        a.is(CREATE_PROCESS) && a.first == 4098 && a.rest_is_right()
    }),
    refused(WRONG_FIELDS, "CREATE of more, even", |a| {
        a.is(CREATE_PROCESS) && a.first > 4098 && a.first % 2 == 0 && a.rest_is_right()
    }),
    refused(WRONG_FIELDS, "CREATE of an odd size with no number free", |a| {
        a.is(CREATE_PROCESS) && a.first % 2 == 1 && a.created().is_none() && a.rest_is_right()
    }),
    refused(WRONG_FIELDS, "CREATE of 4,098 and more with too few bytes free", |a| {
        a.is(CREATE_PROCESS) && a.first > 4097 && a.free() < 4096 && a.rest_is_right()
    }),
    // the room for it
    granted("CREATE of just the free bytes", |a| {
        a.is(CREATE_PROCESS) && a.asked() == a.free() && a.free() < 4096
    }),
    granted("CREATE of 0 with just 4,096 free", |a| {
        a.is(CREATE_PROCESS) && a.first == 0 && a.free() == 4096
    }),
    granted("CREATE of 2 fewer than are free", |a| {
        a.is(CREATE_PROCESS) && a.asked() + 2 == a.free()
    }),
    refused(NO_ROOM, "CREATE of 2 more than are free, a number free", |a| {
        a.is(CREATE_PROCESS) && a.asked() == a.free() + 2 && a.created().is_some()
    }),
    refused(NO_ROOM, "CREATE of 0 with fewer than 4,096 free, a number free", |a| {
        a.is(CREATE_PROCESS) && a.first == 0 && a.free() < 4096 && a.created().is_some()
    }),
    refused(NO_ROOM, "CREATE with no byte free, a number free", |a| {
        a.is(CREATE_PROCESS) && a.free() == 0 && a.created().is_some()
    }),
    refused(NO_ROOM, "CREATE with no number free, bytes enough", |a| {
        a.is(CREATE_PROCESS) && a.created().is_none() && a.asked() <= a.free()
    }),
    refused(NO_ROOM, "CREATE with neither", |a| {
        a.is(CREATE_PROCESS) && a.created().is_none() && a.asked() > a.free()
    }),
    refused(NO_ROOM, "CREATE with eight of 2,048 there", |a| {
        a.is(CREATE_PROCESS) && a.state.processes.iter().all(|p| p.there && p.size == 2048)
    }),
    granted("CREATE of the first", |a| {
        a.is(CREATE_PROCESS) && a.state.processes.iter().all(|p| !p.there)
    }),
    granted("CREATE of the eighth", |a| {
        a.is(CREATE_PROCESS) && a.state.processes.iter().filter(|p| p.there).count() == 7
    }),
    granted("CREATE while out of number order", |a| a.is(CREATE_PROCESS) && out_of_order(a.state)),
    granted("CREATE with bytes in the free end after it", |a| {
        a.is(CREATE_PROCESS) && a.free_end().iter().skip(a.asked()).any(|&byte| byte != 0)
    }),
    damaged("CREATE over a record with a begin", |a| {
        a.is(CREATE_PROCESS) && a.created().is_some_and(|p| a.state.processes[p].begin != 0)
    }),
    damaged("CREATE beside an absent record with a begin", |a| {
        let new = a.created();
        let begun = |p: usize| !a.state.processes[p].there && a.state.processes[p].begin != 0;
        a.is(CREATE_PROCESS) && (0..PROCESSES).any(|p| Some(p) != new && begun(p))
    }),
    // what a DESTROY moves
    granted("DESTROY that moves none", |a| a.is(DESTROY_PROCESS) && a.above().is_empty()),
    granted("DESTROY that moves 1", |a| a.is(DESTROY_PROCESS) && a.above().len() == 1),
    granted("DESTROY that moves several", |a| a.is(DESTROY_PROCESS) && a.above().len() > 1),
    granted("DESTROY that moves 7", |a| a.is(DESTROY_PROCESS) && a.above().len() == 7),
    granted("DESTROY between others", |a| {
        a.is(DESTROY_PROCESS) && a.process.begin > 0 && !a.above().is_empty()
    }),
    granted("DESTROY that leaves none", |a| {
        a.is(DESTROY_PROCESS) && a.process.begin == 0 && a.above().is_empty()
    }),
    granted("DESTROY that moves a planted word", |a| a.moves(|_, b| b.planted())),
    granted("DESTROY that moves a lifted one", |a| a.moves(|_, b| b.lifted)),
    granted("DESTROY that moves one written over", |a| a.moves(|p, b| a.written_over_in(p, b))),
    granted("DESTROY that moves a breakpoint at the last word", |a| {
        a.moves(|p, b| b.address + 2 == p.size)
    }),
    granted("DESTROY that moves a lower number", |a| {
        a.is(DESTROY_PROCESS) && a.above().iter().any(|&p| p < a.p)
    }),
    granted("DESTROY that leaves a higher number where it is", |a| {
        let below = |p: &Process| p.there && p.begin < a.process.begin;
        a.is(DESTROY_PROCESS) && a.state.processes[a.p..].iter().any(below)
    }),
    granted("DESTROY that moves more bytes than it frees", |a| {
        a.is(DESTROY_PROCESS) && a.moved_bytes() > a.size()
    }),
    granted("DESTROY that moves fewer bytes than it frees", |a| {
        a.is(DESTROY_PROCESS) && (1..a.size()).contains(&a.moved_bytes())
    }),
    granted("DESTROY that moves more than 4,096 bytes", |a| {
        a.is(DESTROY_PROCESS) && a.moved_bytes() > 4096
    }),
    granted("DESTROY of 2 bytes below others", |a| {
        a.is(DESTROY_PROCESS) && a.size() == 2 && !a.above().is_empty()
    }),
    granted("DESTROY of 4,096 bytes below others", |a| {
        a.is(DESTROY_PROCESS) && a.size() == 4096 && !a.above().is_empty()
    }),
    granted("DESTROY with no byte free", |a| a.is(DESTROY_PROCESS) && a.free() == 0),
    granted("DESTROY with bytes in the free end", |a| {
        a.is(DESTROY_PROCESS) && a.free_end().iter().any(|&byte| byte != 0)
    }),
    damaged("DESTROY with the begin of an absent record above it", |a| {
        let above = |p: &Process| !p.there && p.begin > a.process.begin;
        a.is(DESTROY_PROCESS) && a.state.processes.iter().any(above)
    }),
    refused(NO_RIGHT, "stranger's DESTROY below others", |a| {
        a.is(DESTROY_PROCESS) && !a.above().is_empty()
    }),
    // processes at the end of memory, and at any place
    granted("EXAMINE to the last byte of memory", |a| {
        a.is(EXAMINE) && a.count > 0 && a.process.place().end == MEMORY && a.end() == a.size()
    }),
    granted("DEPOSIT to the last byte of memory", |a| {
        a.is(DEPOSIT) && a.count > 0 && a.process.place().end == MEMORY && a.end() == a.size()
    }),
    granted("BREAK at the last word of memory", |a| {
        a.is(BREAK) && !a.known() && a.process.place().end == MEMORY && a.first + 2 == a.size()
    }),
    refused(OUTSIDE, "EXAMINE past the size, into another's bytes", |a| {
        a.is(EXAMINE) && a.end() > a.size() && !a.above().is_empty() && a.end() < 4096
    }),
    granted("EXAMINE while out of number order", |a| a.is(EXAMINE) && out_of_order(a.state)),
    granted("DEPOSIT while out of number order", |a| a.is(DEPOSIT) && out_of_order(a.state)),
    granted("BREAK plants while out of number order", |a| {
        a.is(BREAK) && !a.known() && out_of_order(a.state)
    }),
    granted("END DEBUG with a planted one while out of number order", |a| {
        a.is(END_DEBUG) && a.some(Breakpoint::planted) && out_of_order(a.state)
    }),
    granted("BPT passed while out of number order", |a| a.passes() && out_of_order(a.state)),
];
