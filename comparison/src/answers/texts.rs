//! Texts to read back: good answer lines among bad ones of every kind.

use super::faulty;
use super::lines::{digits, good, in_any_case, written, STATUSES};
use oracle::draw::Draw;

/// Some lines, of which the last may lack its feed; now and then feeds alone, or nothing.
pub fn text(draw: &mut Draw) -> Vec<u8> {
    let mut text = match draw.below(16) {
        0 => vec![b'\n'; draw.below(20) as usize],
        _ => (0..draw.below(9)).flat_map(|_| with_feed(draw)).collect(),
    };
    if draw.below(2) == 0 {
        text.pop();
    }
    text
}

fn with_feed(draw: &mut Draw) -> Vec<u8> {
    let mut line = line(draw);
    line.push(b'\n');
    line
}

fn line(draw: &mut Draw) -> Vec<u8> {
    match draw.below(12) {
        0 => Vec::new(),
        1 => {
            let length = draw.pick(&[17, 18, 19, 200]);
            digits(draw, length)
        }
        2 => [good_line(draw), b"\r".to_vec()].concat(),
        3..=5 => bad_line(draw),
        _ => good_line(draw),
    }
}

/// A line that is read, of any status and in any case.
pub fn good_line(draw: &mut Draw) -> Vec<u8> {
    let status = draw.pick(&STATUSES);
    let line = written(good(draw, status));
    in_any_case(draw, line)
}

/// A line that is refused: half of them for one thing, half for any combination.
pub fn bad_line(draw: &mut Draw) -> Vec<u8> {
    let mut one = [false; 5];
    one[draw.below(5) as usize] = true;
    let any = draw.pick(&faulty::all()[1..]);
    let faults = draw.pick(&[one, any]);
    faulty::line(draw, faults)
}
