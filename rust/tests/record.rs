//! Answer lines read back: held to a reader written out here, refused one by one and in their order, and
//! gone through in texts, with what is not written looked at.

use hatchyarn::record::{self, BadLine, Reason, Record};
use hatchyarn::{answer_all, raw, Answer, DivideRefusal, Flags, Refusal};

const GOOD: &str = "000001005100030001";

/// What is lent holds these, so that a number that is written shows.
const UNTOUCHED: [u16; 5] = [0xA5A5; 5];
const NO_PLACE: usize = 0xA5A5;

/// As they are tested.
const REASONS: [Reason; 5] = [
    Reason::Length,
    Reason::Digit,
    Reason::Status,
    Reason::Flags,
    Reason::NotZero,
];

/// The five fields of a line, or why it has none, by docs/CHARTS.md.
fn on_paper(line: &[u8]) -> Result<[u16; 5], Reason> {
    if line.len() != 18 {
        return Err(Reason::Length);
    }
    if !line.iter().all(u8::is_ascii_hexdigit) {
        return Err(Reason::Digit);
    }
    let text = std::str::from_utf8(line).unwrap();
    let field = |from: usize, to: usize| u16::from_str_radix(&text[from..to], 16).unwrap();
    let [status, flags, steps, r, s] = [
        field(0, 2),
        field(2, 6),
        field(6, 10),
        field(10, 14),
        field(14, 18),
    ];
    if ![0, 1, 2, 3, 4, 5, 6, 8, 9].contains(&status) {
        return Err(Reason::Status);
    }
    if flags & 0x08D5 != flags {
        return Err(Reason::Flags);
    }
    let zeros: &[u16] = match status {
        0 => &[],
        1..=5 => &[flags, steps, r, s],
        _ => &[r, s],
    };
    if zeros.iter().any(|field| *field != 0) {
        return Err(Reason::NotZero);
    }
    Ok([status, flags, steps, r, s])
}

fn fields(record: Record) -> [u16; 5] {
    let (status, flags) = (u16::from(record.status()), record.flags().word());
    [status, flags, record.steps(), record.r(), record.s()]
}

/// The line is read so, alone and as a text, by both forms.
fn is_read(line: &[u8], wanted: Result<[u16; 5], Reason>) {
    let said = String::from_utf8_lossy(line);
    let typed = Record::try_from(line);
    assert_eq!(typed.map(fields), wanted, "{said}");
    if let Ok(text) = std::str::from_utf8(line) {
        assert_eq!(text.parse::<Record>(), typed, "{said}");
    }
    let status = wanted.map_or_else(Reason::status, |_| 0);
    let after = wanted.unwrap_or(UNTOUCHED);
    let mut lent = UNTOUCHED;
    assert_eq!(raw::read_answer(line, &mut lent), status, "{said}");
    assert_eq!(lent, after, "{said}");
    if line.is_empty() || line.contains(&b'\n') {
        return;
    }
    let (mut place, mut lent, mut start) = (0, UNTOUCHED, NO_PLACE);
    let got = raw::next_answer(line, &mut place, &mut lent, &mut start);
    assert_eq!((got, lent), (status, after), "{said}");
    assert_eq!((place, start), (line.len(), 0), "{said}");
}

fn is_refused(line: &str, reason: Reason) {
    assert_eq!(on_paper(line.as_bytes()), Err(reason), "{line}");
    is_read(line.as_bytes(), Err(reason));
}

/// Numbers that look as if drawn.
struct Draw(u32);

impl Draw {
    fn below(&mut self, most: u32) -> u32 {
        self.0 = self.0.wrapping_mul(1_664_525).wrapping_add(1_013_904_223);
        (self.0 >> 8) % most
    }

    fn word(&mut self) -> u16 {
        self.below(0x1_0000) as u16
    }
}

/// A line that can be read.
fn drawn(draw: &mut Draw) -> String {
    let status = [0, 0, 0, 1, 2, 3, 4, 5, 6, 8, 9][draw.below(11) as usize];
    let [flags, steps, r, s] = match status {
        0 => [draw.word() & 0x08D5, draw.word(), draw.word(), draw.word()],
        1..=5 => [0; 4],
        _ => [draw.word() & 0x08D5, draw.word(), 0, 0],
    };
    format!("{status:02X}{flags:04X}{steps:04X}{r:04X}{s:04X}")
}

#[test]
fn a_line_that_is_read_shows_itself_in_capitals() {
    let mut draw = Draw(1);
    for _ in 0..20_000 {
        let line = drawn(&mut draw);
        let mixed: String = line
            .chars()
            .map(|c| match draw.below(2) {
                0 => c.to_ascii_lowercase(),
                _ => c,
            })
            .collect();
        for text in [&line, &line.to_lowercase(), &mixed] {
            let record: Record = text.parse().unwrap();
            assert_eq!(record.to_string(), line);
            is_read(text.as_bytes(), on_paper(line.as_bytes()));
        }
    }
}

#[test]
fn each_field_has_its_place() {
    let record: Record = "0008D51234ABCDEF98".parse().unwrap();
    assert_eq!(record.status(), 0);
    assert_eq!(record.flags(), Flags::ALL);
    assert_eq!(record.steps(), 0x1234);
    assert_eq!((record.r(), record.s()), (0xABCD, 0xEF98));
    for place in 0..18 {
        let mut line = [b'0'; 18];
        line[place] = b'1';
        is_read(&line, on_paper(&line));
    }
}

#[test]
fn a_line_of_another_length_is_refused() {
    let zeros = "0".repeat(1000);
    for length in (0..=40).chain([1000]).filter(|length| *length != 18) {
        is_refused(&zeros[..length], Reason::Length);
    }
    for line in [format!("{GOOD}\n"), format!("{GOOD}\r"), format!(" {GOOD}")] {
        is_refused(&line, Reason::Length);
    }
}

#[test]
fn every_byte_at_every_place() {
    for place in 0..18 {
        for byte in 0..=0xFF {
            let mut line = [b'0'; 18];
            line[place] = byte;
            let wanted = on_paper(&line);
            assert_eq!(wanted == Err(Reason::Digit), !byte.is_ascii_hexdigit());
            is_read(&line, wanted);
        }
    }
}

#[test]
fn every_status() {
    for status in 0..=0xFF_u8 {
        let line = format!("{status:02X}0000000000000000");
        let known = matches!(status, 0..=6 | 8 | 9);
        let read = Record::try_from(line.as_bytes());
        assert_eq!(
            read.map(Record::status),
            known.then_some(status).ok_or(Reason::Status)
        );
        is_read(line.as_bytes(), on_paper(line.as_bytes()));
    }
}

#[test]
fn every_flags_word_after_every_status() {
    for status in [0, 1, 2, 3, 4, 5, 6, 8, 9] {
        for flags in 0..=0xFFFF_u16 {
            let line = format!("{status:02X}{flags:04X}000000000000");
            is_read(line.as_bytes(), on_paper(line.as_bytes()));
        }
    }
}

/// Every digit behind the flags of a refusal, where it is not 0; steps are judged after 1 to 5 alone.
#[test]
fn a_refusal_with_more_than_it_may_have_is_refused() {
    for status in [1, 2, 3, 4, 5, 6, 8, 9] {
        for place in 6..18 {
            let zeros = format!("{status:02X}0000000000000000");
            let line = format!("{}8{}", &zeros[..place], &zeros[place + 1..]);
            if status <= 5 || place >= 10 {
                is_refused(&line, Reason::NotZero);
            } else {
                is_read(line.as_bytes(), on_paper(line.as_bytes()));
                assert!(line.parse::<Record>().unwrap().divide_refused());
            }
        }
    }
    for status in 1..=5 {
        for flag in [0x0001, 0x0004, 0x0010, 0x0040, 0x0080, 0x0800] {
            is_refused(
                &format!("{status:02X}{flag:04X}000000000000"),
                Reason::NotZero,
            );
        }
    }
}

/// Each of the refusals, with each set of the later ones beside it.
#[test]
fn the_first_refusal_that_applies_is_given() {
    for faults in 1..32_u32 {
        let fault = |place: u32| faults >> place & 1 == 1;
        let status = match (fault(2), fault(4)) {
            (true, _) => "07",
            (false, true) => "05",
            (false, false) => "00",
        };
        let flags = if fault(3) { "0002" } else { "0000" };
        let last = if fault(1) { "G" } else { "1" };
        let more = if fault(0) { "0" } else { "" };
        let line = format!("{status}{flags}00000000000{last}{more}");
        is_refused(&line, REASONS[faults.trailing_zeros() as usize]);
    }
}

/// Lines that can be read, with a byte or two put in place of others.
#[test]
fn lines_with_a_fault_as_on_paper() {
    let mut draw = Draw(2);
    let bytes = b"0123456789ABCDEFabcdefGg/:@`\0\n\r \xFF";
    for _ in 0..50_000 {
        let mut line = drawn(&mut draw).into_bytes();
        for _ in 0..=draw.below(2) {
            let place = draw.below(18) as usize;
            line[place] = bytes[draw.below(bytes.len() as u32) as usize];
        }
        is_read(&line, on_paper(&line));
    }
}

/// The lines of a text, each with the byte where it starts; a last one may lack its line feed.
fn lines(text: &[u8]) -> Vec<(usize, &[u8])> {
    let mut found: Vec<(usize, &[u8])> = Vec::new();
    let mut start = 0;
    for line in text.split(|byte| *byte == b'\n') {
        found.push((start, line));
        start += line.len() + 1;
    }
    if found.last().is_some_and(|(_, line)| line.is_empty()) {
        found.pop();
    }
    found
}

/// Both forms go through the text line by line, to its end and no further.
fn is_gone_through(text: &[u8]) {
    let said = String::from_utf8_lossy(text);
    let mut read = record::records(text);
    let mut place = 0;
    for (byte, line) in lines(text) {
        let wanted = on_paper(line);
        let next = (byte + line.len() + 1).min(text.len());
        assert_eq!(read.place(), byte, "{said:?}");
        let bad = |reason| BadLine { byte, reason };
        let typed = read.next().expect("there is a line");
        assert_eq!(typed.map(fields), wanted.map_err(bad), "{said:?}");
        assert_eq!(read.place(), next, "{said:?}");

        let (mut lent, mut start) = (UNTOUCHED, NO_PLACE);
        let status = raw::next_answer(text, &mut place, &mut lent, &mut start);
        assert_eq!(
            status,
            wanted.map_or_else(Reason::status, |_| 0),
            "{said:?}"
        );
        assert_eq!(lent, wanted.unwrap_or(UNTOUCHED), "{said:?}");
        assert_eq!((start, place), (byte, next), "{said:?}");
    }
    for _ in 0..3 {
        assert_eq!(read.next(), None, "{said:?}");
        assert_eq!(read.place(), text.len(), "{said:?}");
        is_at_its_end(text, text.len());
    }
}

/// From this place on there is no line, and all that is lent stays.
fn is_at_its_end(text: &[u8], from: usize) {
    let (mut place, mut lent, mut start) = (from, UNTOUCHED, NO_PLACE);
    let status = raw::next_answer(text, &mut place, &mut lent, &mut start);
    assert_eq!(status, 255);
    assert_eq!((place, lent, start), (from, UNTOUCHED, NO_PLACE));
}

/// All texts of up to five of these pieces, so that lines are empty, too long, cut and without a line feed.
#[test]
fn texts_are_gone_through_line_by_line() {
    let pieces = [
        "\n",
        GOOD,
        "090014005f00000000\n",
        "0000\n",
        "070000000000000000",
    ];
    let mut texts = vec![String::new()];
    for _ in 0..5 {
        let longer: Vec<String> = texts
            .iter()
            .flat_map(|text| pieces.map(|piece| format!("{text}{piece}")))
            .collect();
        texts.extend(longer);
        texts.sort();
        texts.dedup();
    }
    assert!(texts.len() > 3000);
    for text in &texts {
        is_gone_through(text.as_bytes());
    }
}

#[test]
fn an_empty_text_has_no_line() {
    assert_eq!(record::records(b"").next(), None);
    assert_eq!(record::records(b"").place(), 0);
    is_gone_through(b"");
}

#[test]
fn line_feeds_alone_are_empty_lines() {
    let bad = |byte| {
        let reason = Reason::Length;
        Err(BadLine { byte, reason })
    };
    let read: Vec<_> = record::records(b"\n\n\n").collect();
    assert_eq!(read, [bad(0), bad(1), bad(2)]);
    is_gone_through(b"\n\n\n");
}

#[test]
fn a_last_line_may_lack_its_line_feed() {
    let with: Vec<_> = record::records(format!("{GOOD}\n{GOOD}\n").as_bytes()).collect();
    let without: Vec<_> = record::records(format!("{GOOD}\n{GOOD}").as_bytes()).collect();
    assert_eq!(with, without);
    assert_eq!(with, [Ok(GOOD.parse().unwrap()); 2]);
}

#[test]
fn a_long_line_is_one_line() {
    let long = "0".repeat(100_000);
    is_gone_through(format!("{long}\n{GOOD}\n{long}").as_bytes());
}

#[test]
fn a_carriage_return_is_a_byte_of_its_line() {
    let text = format!("{GOOD}\r\n{GOOD}\r\n");
    let read: Vec<_> = record::records(text.as_bytes()).collect();
    let reason = Reason::Length;
    assert_eq!(read, [0, 20].map(|byte| Err(BadLine { byte, reason })));
}

#[test]
fn a_place_past_the_text_is_its_end() {
    let text = format!("{GOOD}\n");
    for text in [text.as_bytes(), b""] {
        for more in [0, 1, 2, 18, 1000] {
            is_at_its_end(text, text.len() + more);
        }
        is_at_its_end(text, usize::MAX);
        is_at_its_end(text, usize::MAX - 1);
    }
}

/// From the middle of a line its rest is the line.
#[test]
fn a_place_within_a_line() {
    let text = format!("{GOOD}{GOOD}\n{GOOD}\n");
    for from in 0..text.len() {
        let end = from + text[from..].find('\n').unwrap();
        let wanted = on_paper(&text.as_bytes()[from..end]);
        let (mut place, mut lent, mut start) = (from, UNTOUCHED, NO_PLACE);
        let status = raw::next_answer(text.as_bytes(), &mut place, &mut lent, &mut start);
        assert_eq!(status, wanted.map_or_else(Reason::status, |_| 0));
        assert_eq!(lent, wanted.unwrap_or(UNTOUCHED));
        assert_eq!((place, start), (end + 1, from));
    }
}

/// Requests that get each status that a line can have.
const REQUESTS: &str = "11000000000000070002\nshort\n1100000000000007000G\nFF000000000000000000\n\
    00080000000000000000\n00000000000001000000\n11000000000000070000\n11000000000001000001\n\
    110200000000FF800001\n10030000000080018001\n000008D5000000FF0001\n1B0000100000009A0000";

#[test]
fn what_is_answered_is_read_back() {
    let mut answers = Vec::new();
    let count = answer_all(REQUESTS.as_bytes(), &mut answers).unwrap();
    let read: Result<Vec<Record>, BadLine> = record::records(&answers).collect();
    let read = read.unwrap();
    assert_eq!(read.len() as u64, count);
    let statuses: Vec<u8> = read.iter().map(|record| record.status()).collect();
    assert_eq!(statuses, [0, 1, 2, 3, 4, 5, 6, 8, 9, 0, 0, 0]);
    let shown: String = read.iter().map(|record| format!("{record}\n")).collect();
    assert_eq!(shown.as_bytes(), answers);
    for (request, record) in REQUESTS.lines().zip(read) {
        let outcome = match asked(request) {
            Some(outcome) => outcome,
            None if request.len() == 20 => Err(Refusal::Digit),
            None => Err(Refusal::Length),
        };
        assert_eq!(record.outcome(), outcome, "{request}");
        assert_eq!(Record::try_from(outcome), Ok(record), "{request}");
    }
}

/// The answers of the recorded list, of every operation, mode and status.
#[test]
fn the_recorded_answers_are_read_back() {
    let list = include_bytes!("../../crates/replay/stdin");
    let mut statuses = [false; 10];
    for line in list
        .split(|byte| *byte == b'\n')
        .filter(|line| !line.is_empty())
    {
        let answer = &line[..18];
        let record = Record::try_from(answer).unwrap();
        assert_eq!(record.to_string().as_bytes(), answer);
        statuses[usize::from(record.status())] = true;
    }
    let met: Vec<_> = (0..10).filter(|status| statuses[*status]).collect();
    assert_eq!(met, [0, 1, 2, 3, 4, 5, 6, 8, 9]);
}

/// What the same request gets as numbers; `None` where the line has none.
fn asked(request: &str) -> Option<Result<Answer, Refusal>> {
    if request.len() != 20 {
        return None;
    }
    let field = |from: usize, to: usize| u32::from_str_radix(&request[from..to], 16).ok();
    let (op, mode) = (field(0, 2)? as u8, field(2, 4)? as u8);
    let (flags, x, y) = (field(4, 8)? as u16, field(8, 16)?, field(16, 20)? as u16);
    Some(raw::ask(op, mode, flags, x, y).result())
}

#[test]
fn exactly_6_8_and_9_are_refused_divides() {
    let mut seen = Vec::new();
    for status in 0..=0xFF_u8 {
        let line = format!("{status:02X}0000000000000000");
        if let Ok(record) = line.parse::<Record>() {
            let by_outcome = matches!(record.outcome(), Err(Refusal::Divide { .. }));
            assert_eq!(record.divide_refused(), by_outcome);
            seen.extend(record.divide_refused().then_some(status));
        }
    }
    assert_eq!(seen, [6, 8, 9]);
}

#[test]
fn an_outcome_is_what_the_line_was_written_for() {
    let refused = |why| {
        let flags = Flags::PARITY | Flags::ZERO;
        Err(Refusal::Divide {
            why,
            flags,
            steps: 9,
        })
    };
    let answer = Answer {
        flags: Flags::CARRY,
        steps: 81,
        r: 3,
        s: 1,
    };
    let each = [
        (GOOD, Ok(answer)),
        ("010000000000000000", Err(Refusal::Length)),
        ("020000000000000000", Err(Refusal::Digit)),
        ("030000000000000000", Err(Refusal::Operation)),
        ("040000000000000000", Err(Refusal::Mode)),
        ("050000000000000000", Err(Refusal::TooLarge)),
        ("060044000900000000", refused(DivideRefusal::ZeroDivisor)),
        ("080044000900000000", refused(DivideRefusal::TooWide)),
        ("090044000900000000", refused(DivideRefusal::SignRange)),
    ];
    for (line, outcome) in each {
        let record: Record = line.parse().unwrap();
        assert_eq!(record.outcome(), outcome);
        assert_eq!(Record::try_from(outcome), Ok(record));
    }
    let none = Record::try_from(Err(Refusal::Room));
    assert_eq!(none, Err(Reason::Status));
    assert_eq!("070000000000000000".parse::<Record>(), none);
}

#[test]
fn a_record_is_told_in_words() {
    let said = [
        (GOOD, "done: flags C, 81 steps, R 0003, S 0001"),
        (
            "0008D50000ABCDEF98",
            "done: flags C P A Z S O, 0 steps, R ABCD, S EF98",
        ),
        (
            "000000000100000000",
            "done: no flags, 1 step, R 0000, S 0000",
        ),
        (
            "010000000000000000",
            "the request is refused: the line is not 20 bytes long",
        ),
        (
            "050000000000000000",
            "the request is refused: X or Y is too large, or a bit of the flags word is no flag",
        ),
        (
            "060044000900000000",
            "the divide is refused: the divisor is 0; flags P Z, 9 steps",
        ),
        (
            "080000FFFF00000000",
            "the divide is refused: the quotient needs more bits than the divisor has; no flags, 65535 steps",
        ),
        (
            "090014005F00000000",
            "the divide is refused: the quotient does not fit with its sign; flags P A, 95 steps",
        ),
    ];
    for (line, words) in said {
        let record: Record = line.parse().unwrap();
        assert_eq!(record.meaning().to_string(), words);
        assert_eq!(
            format!("{:100}|", record.meaning()),
            format!("{words:100}|")
        );
        assert_eq!(format!("{record:>20}|"), format!("  {line}|"));
    }
}

#[test]
fn a_refusal_says_why_and_where() {
    let said = [
        "the line is not 18 bytes long",
        "a byte of the line is no hexadecimal digit",
        "the status is not 0 to 6, 8 or 9",
        "a bit of the flags word is no flag",
        "a field that has to be 0 with this status is not",
    ];
    for (reason, words) in REASONS.into_iter().zip(said) {
        assert_eq!(reason.to_string(), words);
        assert_eq!(format!("{reason:60}|"), format!("{words:60}|"));
        let bad = BadLine { byte: 38, reason };
        let sentence = format!("the line at byte 38 cannot be read: {words}");
        assert_eq!(bad.to_string(), sentence);
        assert_eq!(format!("{bad:90}|"), format!("{sentence:90}|"));
    }
    let statuses = REASONS.map(Reason::status);
    assert_eq!(statuses, [30, 31, 32, 33, 34]);
}

/// The cells behind the words, of each row of the table of docs/CHARTS.md with this head.
fn charted(head: &str) -> Vec<Vec<&'static str>> {
    let page = include_str!("../../docs/CHARTS.md");
    let from = page.lines().skip_while(|line| !line.starts_with(head));
    let rows = from.skip(2).take_while(|line| line.starts_with('|'));
    rows.map(|row| {
        let cells = row.trim_matches('|').split('|').skip(1);
        cells.map(|cell| cell.trim().trim_matches('`')).collect()
    })
    .collect()
}

#[test]
fn the_examples_of_the_charts() {
    let examples = charted("| a line | as it stands |");
    let mut seen = Vec::new();
    for cells in &examples {
        let [line, status, meaning] = cells[..] else {
            panic!("{cells:?}");
        };
        let read = line.parse::<Record>();
        let got = read.map_or_else(Reason::status, |_| 0);
        assert_eq!(got.to_string(), status, "{line}");
        let words = match read {
            Ok(record) => record.meaning().to_string(),
            Err(reason) => reason.to_string(),
        };
        assert_eq!(words, meaning, "{line}");
        seen.push(got);
    }
    seen.sort();
    seen.dedup();
    assert_eq!(seen, [0, 30, 31, 32, 33, 34]);
}
