//! Compares a library with the model, call by call, on random call lists and on
//! every value of each field.
//!
//! Arguments: the number of calls (200000 if not given), which are made without
//! damage to the state and as many again with it, of each half as many more at the Pup
//! door; a seed (1 if not given); and
//! the word `each`, with which every call of the lists is printed before it is made
//! (should the library not come back from one). Before each request both are asked why
//! they would refuse it, and the request has to get the number that they told. The same
//! seed always gives the same calls. The program ends with 1 at the first difference, and with 1 if a kind
//! of answer that the paper makes possible, or one of the passages or values that
//! are counted, was never met; otherwise with 0.
//!
//! The library is given to the linker (`-L DIR -l static=palustrode`); with the
//! feature `standin` the model itself takes its place, and with the word `wrong` in
//! place of `each` there is a comparison for each wrong library of `wrong.rs` and of
//! the files beside it, or of those alone in whose name the next word stands: the program
//! ends with 0 if each of them was seen. If the library
//! was built by another compiler, or has a panic handler of its own, the linker needs
//! `-C link-arg=-Wl,--allow-multiple-definition` besides.

mod about;
mod answers;
mod calls;
#[cfg(feature = "standin")]
mod changes;
mod damage;
mod damage_packets;
mod damage_places;
mod damage_watches;
mod describe;
mod desk;
mod layout;
mod lent;
mod library;
mod line_table;
#[cfg(feature = "standin")]
mod lined;
mod lines;
#[cfg(feature = "standin")]
mod made;
mod moods;
mod packet_table;
mod packets;
mod passages;
mod passages_go;
mod passages_layout;
mod passages_lines;
mod passages_owed;
mod passages_packets;
mod passages_passing;
mod passages_status;
mod passages_watches;
mod passages_watching;
mod passing;
mod pup;
#[cfg(feature = "standin")]
mod pupped;
mod random;
mod reason_rows;
mod reasons;
mod reports;
mod run;
mod sides;
mod sizes;
mod stack;
#[cfg(feature = "standin")]
mod standin;
mod starts;
mod states;
mod status;
mod sweeps;
mod sweeps_go;
mod sweeps_lines;
mod sweeps_packets;
mod sweeps_runs;
mod sweeps_status;
mod sweeps_watches;
mod sweeps_why;
mod table;
#[cfg(feature = "standin")]
mod told_why;
mod values;
mod values_layout;
mod values_lines;
mod values_packets;
mod values_passing;
mod values_status;
mod values_watches;
#[cfg(feature = "standin")]
mod watched;
mod watchers;
mod watching;
mod why;
mod whys;
#[cfg(feature = "standin")]
mod wrong;
#[cfg(feature = "standin")]
mod wrong_abandon;
#[cfg(feature = "standin")]
mod wrong_answers;
#[cfg(feature = "standin")]
mod wrong_asking;
#[cfg(feature = "standin")]
mod wrong_blocks;
#[cfg(feature = "standin")]
mod wrong_create;
#[cfg(feature = "standin")]
mod wrong_end_watch;
#[cfg(feature = "standin")]
mod wrong_go;
#[cfg(feature = "standin")]
mod wrong_go_sound;
#[cfg(feature = "standin")]
mod wrong_going;
#[cfg(feature = "standin")]
mod wrong_layout;
#[cfg(feature = "standin")]
mod wrong_limits;
#[cfg(feature = "standin")]
mod wrong_lines;
#[cfg(feature = "standin")]
mod wrong_numbers;
#[cfg(feature = "standin")]
mod wrong_owed;
#[cfg(feature = "standin")]
mod wrong_packets;
#[cfg(feature = "standin")]
mod wrong_passing;
#[cfg(feature = "standin")]
mod wrong_setters;
#[cfg(feature = "standin")]
mod wrong_sizes;
#[cfg(feature = "standin")]
mod wrong_status;
#[cfg(feature = "standin")]
mod wrong_status_desk;
#[cfg(feature = "standin")]
mod wrong_tests;
#[cfg(feature = "standin")]
mod wrong_text;
#[cfg(feature = "standin")]
mod wrong_ticks;
#[cfg(feature = "standin")]
mod wrong_told;
#[cfg(feature = "standin")]
mod wrong_watches;
#[cfg(feature = "standin")]
mod wrong_why;
#[cfg(feature = "standin")]
mod wrong_words;

use run::Comparison;
use std::process::ExitCode;

/// The stack that include/palustrode.h says a call needs. The model in the library's
/// place may need any.
const STACK: usize = if cfg!(feature = "standin") { usize::MAX } else { 1936 };

fn main() -> ExitCode {
    let mut arguments = std::env::args().skip(1);
    let mut number = |otherwise: u64| match arguments.next() {
        None => Some(otherwise),
        Some(text) => text.parse().ok(),
    };
    let (Some(limit), Some(seed)) = (number(200_000), number(1)) else {
        eprintln!("arguments: [number of calls] [seed] [each]");
        return ExitCode::from(2);
    };
    let word = arguments.next();
    #[cfg(feature = "standin")]
    if word.as_deref() == Some("wrong") {
        let part = arguments.next().unwrap_or_default();
        let seen = wrong::all_seen(limit, seed, &part);
        return if seen { ExitCode::SUCCESS } else { ExitCode::from(1) };
    }
    let print_each = word.as_deref() == Some("each");
    let mut comparison = Comparison::new(seed, print_each);
    if let Err(text) = comparison.run(limit) {
        println!("{text}\nseed {seed}, call number {}", comparison.calls);
        return ExitCode::from(1);
    }
    let wrong = comparison.print();
    let Comparison { calls, asked, .. } = comparison;
    println!("\n{calls} calls, seed {seed}: no difference");
    println!("before each request, and {asked} times besides, both were asked why");
    let deepest = stack::deepest();
    println!("the deepest stack of a call: {deepest} bytes");
    if deepest > STACK {
        println!("but include/palustrode.h names {STACK}");
        return ExitCode::from(1);
    }
    if !wrong.is_empty() {
        println!("but possible and never met, or met and impossible:\n{}", wrong.join("\n"));
        return ExitCode::from(1);
    }
    ExitCode::SUCCESS
}
