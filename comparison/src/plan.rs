//! The sections of a comparison, in the order in which they run.

use crate::answers::{over_texts, sections as answers};
use crate::form::Form;
use crate::lines::sections as lines;
use crate::packed::sections as packed;
use crate::registers::{refusals, sections as registers, sequences};
use crate::roads::sections as roads;
use crate::section::Section;
use crate::trap::sections as trap;
use crate::{bytes, judged, refused, whole, words};

pub fn sections(form: Form) -> Vec<Section> {
    let all = [of_requests(form), over_bytes(form), over_numbers(form)];
    all.into_iter().flatten().collect()
}

/// What MartyPC has too.
fn of_requests(form: Form) -> Vec<Section> {
    vec![
        bytes::alu(form),
        bytes::multiply(form),
        bytes::divide(form),
        bytes::adjusts(form),
        bytes::aad(form),
        words::at_edges(),
        words::drawn(form),
        whole::shifts(form),
        refused::bytes(form),
        refused::words(form),
        judged::ops_and_modes(form),
        judged::limits(form),
    ]
}

/// The functions that are lent texts or packed digits.
fn over_bytes(form: Form) -> Vec<Section> {
    vec![
        lines::damaged(form),
        lines::rooms(form),
        lines::runs(form),
        lines::pieces(form),
        packed::bytes(),
        packed::lengths(form),
        packed::runs(form),
        packed::over_nine(form),
        packed::drawn(form),
        packed::pieces(form),
        answers::damaged(form),
        answers::cases(form),
        answers::lengths(form),
        answers::statuses(form),
        answers::flags(form),
        answers::faults(form),
        over_texts::places(form),
        over_texts::of_runs(form),
    ]
}

/// The functions that are lent numbers: what would trap, those over a register record, and the roads.
fn over_numbers(form: Form) -> Vec<Section> {
    vec![
        trap::bytes(form),
        trap::words(form),
        trap::borders(form),
        trap::limits(form),
        trap::martypc(form),
        trap::befores(form),
        registers::divides(form),
        registers::multiplies(form),
        registers::adjusts(form),
        registers::aad(form),
        registers::at_edges(form),
        registers::words(form),
        refusals::totals(form),
        refusals::limits(form),
        refusals::ops_and_modes(form),
        refusals::faults(form),
        sequences::fresh(form),
        sequences::into_the_end(form),
        roads::bytes(form),
        roads::words(form),
        roads::borders(form),
        roads::turns(form),
        roads::limits(form),
        roads::equal_quotients(form),
        roads::martypc(form),
        roads::befores(form),
    ]
}
