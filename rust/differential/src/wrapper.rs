//! The wrapper's calls under test.

use crate::calls::{FieldGiven, NumberedGiven};
use ketphiroj::{Board, Field, Outcome, Profile, Refusal, Reply, Tally, Values, PAGE};
use plain::Told;
use std::ops::Range;

/// The wrapper's calls. An implementation changes some of them to plant a fault: the library's own calls are compared
/// first, so a fault in those would never come as far as the wrapper's.
pub trait Wrapper {
    fn wrapped_start(&self, profile: Profile, page: &[u8]) -> Result<Board, Refusal> {
        Board::start(profile, page)
    }

    fn wrapped_start_in_place(&self, board: &mut Board, profile: Profile, page: &[u8]) -> Result<(), Refusal> {
        board.start_in_place(profile, page)
    }

    fn wrapped_profile(&self, board: &Board) -> Profile {
        board.profile()
    }

    fn wrapped_feed(
        &self,
        port: u8,
        board: &mut Board,
        chunk: &[u8],
        room: &mut [u8],
        page: &mut [u8],
    ) -> Result<Outcome, Refusal> {
        board.feed(port, chunk, room, page)
    }

    fn wrapped_silence(
        &self,
        port: u8,
        board: &mut Board,
        room: &mut [u8],
        page: &mut [u8],
    ) -> Result<Outcome, Refusal> {
        board.silence(port, room, page)
    }

    fn wrapped_tally(&self, board: &Board, port: u8) -> Option<Tally> {
        board.tally(port).copied()
    }

    fn wrapped_count(&self, tally: &mut Tally, answer: &Result<Outcome, Refusal>, before: usize, after: usize) {
        tally.count(answer, before, after)
    }

    fn wrapped_count_call(&self, tally: &mut Tally, told: &Told) {
        let Told { number, taken, skipped, error, before, after } = *told;
        tally.count_call(number, taken, skipped, error, before, after)
    }

    fn wrapped_check_message(&self, message: &[u8]) -> Result<(), Refusal> {
        ketphiroj::check_message(message)
    }

    fn wrapped_write_message(&self, kind: u8, payload: &[u8], room: &mut [u8]) -> Result<usize, Refusal> {
        ketphiroj::write_message(kind, payload, room)
    }

    fn wrapped_write_command(&self, code: u8, function: u8, value: u32, room: &mut [u8]) -> Result<usize, Refusal> {
        ketphiroj::write_command(code, function, value, room)
    }

    fn wrapped_write_numbered(&self, given: &NumberedGiven, room: &mut [u8]) -> Result<usize, Refusal> {
        let NumberedGiven { number, code, function, value } = *given;
        ketphiroj::write_numbered(number, code, function, value, room)
    }

    fn wrapped_append_field(&self, given: &FieldGiven, length: usize, room: &mut [u8]) -> Result<usize, Refusal> {
        let FieldGiven { kind, code, function, value } = *given;
        ketphiroj::append_field(kind, code, function, value, length, room)
    }

    fn wrapped_read_reply(&self, message: &[u8], row: usize) -> Result<Reply, Refusal> {
        ketphiroj::read_reply(message, row)
    }

    fn wrapped_read_rows(&self, message: &[u8]) -> Result<Vec<Reply>, Refusal> {
        Ok(ketphiroj::read_rows(message)?.collect())
    }

    fn wrapped_read_field(&self, message: &[u8], k: usize) -> Result<Field, Refusal> {
        ketphiroj::read_field(message, k)
    }

    fn wrapped_field_range(&self, message: &[u8], k: usize) -> Result<Range<usize>, Refusal> {
        ketphiroj::field_range(message, k)
    }

    fn wrapped_field_data<'a>(&self, message: &'a [u8], k: usize) -> Result<&'a [u8], Refusal> {
        ketphiroj::field_data(message, k)
    }

    fn wrapped_write_data(&self, axes: [[f32; 3]; 2], room: &mut [u8]) -> Result<usize, Refusal> {
        let [acceleration, rate] = axes;
        ketphiroj::write_data(acceleration, rate, room)
    }

    fn wrapped_write_data_bits(&self, bits: [[u32; 3]; 2], room: &mut [u8]) -> Result<usize, Refusal> {
        let [acceleration, rate] = bits;
        ketphiroj::write_data_bits(acceleration, rate, room)
    }

    fn wrapped_check_page(&self, page: &[u8]) -> Result<(), Refusal> {
        ketphiroj::check_page(page)
    }

    fn wrapped_read_values(&self, page: &[u8]) -> Result<Values, Refusal> {
        Values::read(page)
    }

    fn wrapped_write_values(&self, values: &Values, page: &mut [u8]) -> Result<(), Refusal> {
        values.write(page)
    }

    fn wrapped_copy_body(&self, saved: &[u8], factory: &[u8], code: u8, room: &mut [u8]) -> Result<usize, Refusal> {
        ketphiroj::copy_body(saved, factory, code, room)
    }

    fn wrapped_factory_page(&self) -> [u8; PAGE] {
        ketphiroj::factory_page()
    }
}
