//! Texts to run: good lines among bad ones of every kind.

use oracle::draw::Draw;
use oracle::malformed;
use oracle::request::{Operation, REQUEST_DIGITS};

/// Longer than any buffer that a caller or the port may keep.
const LONGEST: u32 = 200_000;

/// Bytes that are no digit and that files are known to hold, or that stand beside the digits.
pub const STRANGE: &[u8] = b"\r\0/:@G`g \t+-xX\x7F\x80\xC3\xFF";

pub struct Texts {
    operations: Vec<Operation>,
    malformed: Vec<Vec<u8>>,
}

impl Texts {
    pub fn new() -> Texts {
        Texts {
            operations: Operation::all().collect(),
            malformed: malformed::lines(),
        }
    }

    /// A text of some lines, one of them long if told. The last may lack its feed.
    pub fn text(&self, draw: &mut Draw, with_long: bool) -> Vec<u8> {
        let lines = draw.below(9);
        let long = draw.below(lines.max(1));
        let mut text = Vec::new();
        for number in 0..lines {
            match with_long && number == long {
                true => text.extend(self.long(draw)),
                false => text.extend(self.line(draw)),
            }
            text.push(b'\n');
        }
        if draw.below(2) == 0 {
            text.pop();
        }
        text
    }

    fn line(&self, draw: &mut Draw) -> Vec<u8> {
        match draw.below(12) {
            0 => Vec::new(),
            1 => {
                let mut short = self.good(draw);
                short.truncate(draw.below(REQUEST_DIGITS as u32) as usize);
                short
            }
            2 => [self.good(draw), self.good(draw)].concat(),
            3 => [self.good(draw), b"\r".to_vec()].concat(),
            4 | 5 => self.spoilt(draw),
            6 => self.malformed[draw.below(self.malformed.len() as u32) as usize].clone(),
            7 => vec![draw.pick(b"0F?\0\xFF"); draw.below(300) as usize],
            _ => self.good(draw),
        }
    }

    /// An admitted line, in capitals, in small letters or in both.
    pub fn good(&self, draw: &mut Draw) -> Vec<u8> {
        let mut line = draw.request(&self.operations).to_line()[..REQUEST_DIGITS].to_vec();
        let some = draw.bits();
        let small = draw.pick(&[0, u64::MAX, some]);
        make_small(&mut line, small);
        line
    }

    fn spoilt(&self, draw: &mut Draw) -> Vec<u8> {
        let mut line = self.good(draw);
        line[draw.below(REQUEST_DIGITS as u32) as usize] = draw.pick(STRANGE);
        line
    }

    /// A good line with so much after it that no buffer holds both.
    fn long(&self, draw: &mut Draw) -> Vec<u8> {
        let mut line = self.good(draw);
        let length = draw.below(LONGEST + 1) as usize;
        line.resize(length, draw.pick(b"0A\r\0\xFF"));
        line
    }
}

/// Makes the letters small in those places that have their bit set.
pub fn make_small(line: &mut [u8], places: u64) {
    for (place, byte) in line.iter_mut().enumerate() {
        if places.rotate_right(place as u32) & 1 != 0 {
            byte.make_ascii_lowercase();
        }
    }
}
