//! A text read from its start to its end as a caller does: each call goes on where the one before it left
//! off, in the same variables.

use super::call::Call;
use super::loan::Loan;
use super::reference::{lines, read, Record, END};
use crate::tally::Tally;

/// How often the end is asked for.
const ENDS: usize = 2;

/// What the variables hold after a call.
#[derive(Clone, Copy, Debug, Default, PartialEq, Eq)]
pub struct Step {
    pub status: u8,
    pub record: Record,
    pub place: usize,
    pub start: usize,
}

impl Step {
    fn of(status: u8, loan: &mut Loan) -> Step {
        let record = loan.record.cells();
        Step {
            status,
            record: (*record).try_into().expect("five numbers are lent"),
            place: loan.place.cells()[0],
            start: loan.start.cells()[0],
        }
    }
}

/// Makes a call for each line, and then for the end. Holds the whole to the lines that the text is cut
/// into at once. Returns what each line was read as.
pub fn hold(tally: &mut Tally, text: &[u8]) -> Vec<Step> {
    let mut loan = Loan::to(Call::Next(text, 0));
    let mut expected = loan.clone();
    let expected_steps = by_lines(text, &mut expected);
    let mut steps = Vec::new();
    for _ in &expected_steps {
        let call = Call::Next(text, loan.place.cells()[0]);
        let status = (tally.answers)(call, &mut loan);
        steps.push(Step::of(status, &mut loan));
        tally.compared += 1;
    }
    if steps != expected_steps || loan != expected {
        tally.fail(|| {
            let call = Call::Next(text, 0);
            format!("{call}, and on to the end: the steps differ")
        });
    }
    steps.truncate(steps.len() - ENDS);
    steps
}

/// The steps as they have to be, and what they leave. Nothing changes at the end.
fn by_lines(text: &[u8], loan: &mut Loan) -> Vec<Step> {
    let mut past = 0;
    let mut steps = Vec::new();
    for line in lines(text) {
        loan.start.cells()[0] = past;
        past = text.len().min(past + line.len() + 1);
        loan.place.cells()[0] = past;
        let status = match read(line) {
            Ok(record) => {
                loan.record.cells().copy_from_slice(&record);
                0
            }
            Err(status) => status,
        };
        steps.push(Step::of(status, loan));
    }
    steps.extend([END; ENDS].map(|status| Step::of(status, loan)));
    steps
}
