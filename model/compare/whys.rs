//! In a list, both sides are also asked why they would refuse requests that are not made:
//! right and wrong ones, on the state at hand and on damaged ones, with other than two facts
//! lent at times. Nothing of it is left after it.

use crate::calls::{make_request, spoil_message};
use crate::damage::damage_state;
use crate::lent::Lent;
use crate::moods::Mood;
use crate::run::Comparison;
use crate::sides::Call;
use model::*;

impl Comparison {
    pub fn ask_why(&mut self, mood: &Mood, with_damage: bool) -> Result<(), String> {
        let (state, was_damaged) = (self.pair.model.state.clone(), self.damaged);
        let message = self.message_to_ask(mood);
        if with_damage && self.asker.one_in(4) {
            let mut bytes = state.bytes().to_vec();
            damage_state(&mut self.asker, &mut bytes);
            self.pair.change(|side| side.state.lend(&bytes));
            self.damaged = true;
        }
        self.lend_facts();
        let call = Call::Why { message };
        self.show(&call);
        let answer = self.pair.call(&call)?;
        self.asked += 1;
        self.reasons.count(&call, &self.pair.model, answer, self.damaged);
        self.pair.change(|side| side.state.clone_from(&state));
        self.damaged = was_damaged;
        Ok(())
    }

    /// Mostly a request that could be granted, at times with errors, or of any bytes and
    /// length.
    fn message_to_ask(&mut self, mood: &Mood) -> Vec<u8> {
        let state = self.state();
        let mut message = make_request(&mut self.asker, &state, mood);
        while self.asker.one_in(6) {
            spoil_message(&mut self.asker, &mut message);
        }
        if self.asker.one_in(50) {
            let length = self.asker.length(&[0, 0, 1, 9, 267, 268, 270, 300, 65_546, 70_000], 600);
            message = self.asker.bytes(length);
        }
        message
    }

    /// Room for two facts, at times for another number of them, with any bytes in it.
    fn lend_facts(&mut self) {
        let count = match self.asker.below(8) {
            0 => self.asker.length(&[0, 1, 3, 4], 40),
            _ => FACTS,
        };
        let (bytes, offset) = (self.asker.bytes(8 * count), 8 * self.asker.below(8));
        self.pair.change(|side| side.facts = Lent::new(&bytes, offset));
    }
}
