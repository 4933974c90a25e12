//! The marked examples of the project's scope, so that shim and placement are
//! held to what the scope says and not to what they happen to give.

use oracle::{answer, Refused, Request};

const C: u16 = 0x0001;
const A: u16 = 0x0010;
const Z: u16 = 0x0040;
const O: u16 = 0x0800;

/// What an example says: steps and flags only where it names them.
struct Example {
    name: &'static str,
    request: &'static str,
    refused: Option<Refused>,
    r: u16,
    s: u16,
    steps: Option<u16>,
    /// The flags named, then those of them that are set.
    flags: (u16, u16),
}

impl Example {
    const fn new(name: &'static str, request: &'static str, r: u16, s: u16) -> Example {
        Example {
            name,
            request,
            refused: None,
            r,
            s,
            steps: None,
            flags: (0, 0),
        }
    }

    const fn steps(mut self, steps: u16) -> Example {
        self.steps = Some(steps);
        self
    }

    const fn flags(mut self, named: u16, set: u16) -> Example {
        self.flags = (named, set);
        self
    }

    const fn refused(mut self, why: Refused) -> Example {
        self.refused = Some(why);
        self
    }

    fn check(&self) {
        let request = Request::parse(self.request.as_bytes()).expect(self.name);
        let given = answer(&request);
        assert_eq!(given.refused, self.refused, "{}", self.name);
        assert_eq!((given.r, given.s), (self.r, self.s), "{}", self.name);
        assert_eq!(
            given.flags & self.flags.0,
            self.flags.1,
            "{} flags",
            self.name
        );
        if let Some(steps) = self.steps {
            assert_eq!(given.steps, steps, "{} steps", self.name);
        }
    }
}

#[test]
fn alu() {
    let all = 0x08D5;
    for example in [
        Example::new("M1", "01000001000000FF0000", 0x00, 0).flags(all, C | A),
        Example::new("M2", "030000010000000000FF", 0x00, 0).flags(all, C | A),
        Example::new("M3", "0A000001000000800000", 0x80, 0).flags(all, C),
        Example::new("M4 by 8", "05000000000000010008", 0, 0).flags(all, C | O),
        Example::new("M4 by 9", "05000000000000010009", 0, 0).flags(C, 0),
    ] {
        example.steps(0).check();
    }
}

#[test]
fn multiply() {
    for example in [
        Example::new("M5", "10020000000000800080", 0x4000, 0).steps(78),
        Example::new("M5 REP", "10060000000000800080", 0xC000, 0).steps(89),
        Example::new("M6", "10000000000000FF00FF", 0xFE01, 0).steps(74),
    ] {
        example.check();
    }
}

#[test]
fn divide() {
    for example in [
        Example::new("M7", "11000000000000FF00FF", 0x01, 0x00).steps(80),
        Example::new("M8", "110000000000010000C8", 0x01, 0x38).steps(79),
        Example::new("M9", "110200000000FF810001", 0x81, 0x00).steps(111),
        Example::new("M9 refused", "110200000000FF800001", 0, 0)
            .steps(95)
            .refused(Refused::SignRange),
        Example::new("M10 by 2", "110200000000FFF90002", 0xFD, 0xFF).steps(106),
        Example::new("M10 by 3", "110200000000FFF50003", 0xFD, 0xFE).steps(106),
    ] {
        example.check();
    }
}

#[test]
fn decimal() {
    for example in [
        Example::new("M11", "18000000000000FA0000", 0x0100, 0).flags(Z, Z),
        Example::new("M12 A set", "1B0000100000009A0000", 0xA0, 0).flags(C, 0),
        Example::new("M12 A clear", "1B0000000000009A0000", 0x00, 0).flags(C, C),
    ] {
        example.check();
    }
}

/// A 16-bit product lies in two places, and flags not named stay.
#[test]
fn placement() {
    for example in [
        Example::new("MUL16", "10010000000012345678", 0x0626, 0x0060),
        Example::new("DIV16", "110100000001000F0010", 0x1000, 0x000F),
        Example::new("AAD", "1A00000000000105000A", 0x000F, 0).steps(58),
        Example::new("SHR keeps O", "06000800000000030001", 0x01, 0).flags(C | O, C | O),
    ] {
        example.check();
    }
}
