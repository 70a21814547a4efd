//! Programs that branch by a code which an embedded command writes.

use super::endings::Stream;
use super::maker::Maker;

const CODES: [&[u8]; 9] = [b"0", b"1", b"ok", b"busy", b"a b", b"", b"-n", b"=", b"r\r"];

impl Maker {
    pub fn cut_codes(&mut self) -> u16 {
        self.loop_limit = self.random.below(3) as u64;
        let code = self.random.pick(&CODES);
        let newlines = self.random.pick(&[0, 1, 1, 1, 1, 2, 3, 30]);
        let mut written = code.to_vec();
        match self.random.below(5) {
            0 => written = self.random.pick(&CODES).to_vec(),
            1 => {
                let length = self.random.between(1, 2);
                written.extend(self.kept_bytes(length));
            }
            _ => {}
        }
        let value = self.value_of(&Stream { kept: written, newlines });
        match self.random.below(4) {
            0 => self.by_variable(value),
            1 => {
                // Goes on for as long as it is equal.
                let test = self.equal_to_code(value, code);
                let body = self.echo_text(b"turn");
                self.sheet.put(27, &[test, body])
            }
            2 => {
                let test = self.equal_to_code(value, code);
                let (yes, no) = (self.any_end(), self.echo_text(b"no"));
                self.sheet.put(21, &[test, yes, no])
            }
            _ => {
                let test = self.equal_to_code(value, code);
                self.shown_answer(test)
            }
        }
    }

    /// The code may stand on either side, and seldom has a newline, which no value ends in.
    fn equal_to_code(&mut self, value: u16, code: &[u8]) -> u16 {
        let code = match self.random.below(6) {
            0 => self.text(&[code, b"\n"].concat()),
            _ => self.text(code),
        };
        match self.random.below(3) {
            0 => self.is_equal(code, value),
            _ => self.is_equal(value, code),
        }
    }

    /// One branch for each code, by a variable that keeps the value.
    fn by_variable(&mut self, value: u16) -> u16 {
        let assign = self.assign("code", value);
        let variable = self.variable("code");
        let mut otherwise = self.echo_text(b"none");
        for code in CODES {
            let code = self.text(code);
            let test = self.is_equal(variable, code);
            let branch = self.echo(&[code]);
            otherwise = self.sheet.put(21, &[test, branch, otherwise]);
        }
        self.sequence(&[assign, otherwise])
    }
}
