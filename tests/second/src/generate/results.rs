//! Programs aimed at results: the flag of a string, the result before and after an instruction,
//! `test` and shift.

use super::maker::Maker;

impl Maker {
    /// Makes the result false or true without ending in Exit.
    fn either_result(&mut self) -> u16 {
        let yes = self.bare("true");
        match self.random.below(2) {
            0 => yes,
            _ => self.sheet.put(20, &[yes]),
        }
    }

    /// Exit or return with the result there is.
    fn keeping_result(&mut self) -> u16 {
        let kind = self.random.pick(&[28, 29]);
        self.sheet.put(kind, &[2])
    }

    /// A variable set from a join of strings that leave the flag or replace it.
    pub fn aimed_flag(&mut self) -> u16 {
        self.arguments.push(b"arg".to_vec());
        let mut parts = Vec::new();
        for _ in 0..self.random.between(1, 4) {
            let part = match self.random.below(7) {
                0 => self.text(b"t"),
                1 => self.argument(1),
                2 => self.variable("y"),
                3 => {
                    let keep = self.keeping_result();
                    self.embedded(keep)
                }
                4 => {
                    let end = self.any_end();
                    self.embedded(end)
                }
                _ => {
                    let result = self.either_result();
                    self.embedded(result)
                }
            };
            parts.push(part);
        }
        let string = self.joined(&parts);
        let before = self.either_result();
        let assign = self.assign("x", string);
        let all = self.sequence(&[before, assign]);
        self.wrapped(all)
    }

    /// A result, an instruction that keeps or changes it, and a look at what it is then.
    pub fn aimed_result(&mut self) -> u16 {
        let before = self.either_result();
        let change = self.result_change();
        let all = match self.random.below(3) {
            0 => self.sequence(&[before, change]),
            1 => {
                let keep = self.keeping_result();
                self.sequence(&[before, change, keep])
            }
            _ => {
                let keep = self.keeping_result();
                let string = self.embedded(keep);
                let assign = self.assign("x", string);
                self.sequence(&[before, change, assign])
            }
        };
        match self.random.below(3) {
            0 => self.wrapped(all),
            1 => {
                let yes = self.bare("true");
                let no = self.sheet.put(20, &[yes]);
                self.sheet.put(21, &[all, yes, no])
            }
            _ => all,
        }
    }

    fn result_change(&mut self) -> u16 {
        let inner = match self.random.below(6) {
            0 => self.keeping_result(),
            1 => self.any_end(),
            2 => self.failing(),
            3 => self.export("x"),
            _ => self.either_result(),
        };
        match self.random.below(8) {
            0 => {
                let word = self.text(b"w");
                let words = vec![word; self.random.below(3)];
                let list = self.fields(&words);
                self.for_each("y", list, inner)
            }
            1 => {
                let no = self.bare("false");
                self.sheet.put(27, &[no, inner])
            }
            2 => {
                self.stack_limit = self.random.below(2) as u64;
                let name = self.fresh_function(inner);
                self.call(&name, &[])
            }
            3 => self.sheet.put(19, &[inner]),
            4 => {
                let other = self.either_result();
                self.sheet.put(23, &[other, inner])
            }
            5 => {
                let other = self.keeping_result();
                self.sheet.put(23, &[inner, other])
            }
            6 => self.held(inner),
            _ => inner,
        }
    }

    /// Failure after either result, the context unchanged by it.
    pub fn failing(&mut self) -> u16 {
        let before = self.either_result();
        let endless = self.endless();
        let string = self.embedded(endless);
        let fails = match self.random.below(3) {
            0 => self.assign("z", string),
            1 => self.echo(&[string]),
            _ => self.call("unknown", &[string]),
        };
        self.sequence(&[before, fails])
    }

    /// Several tests of few fields, each answer shown.
    pub fn aimed_test(&mut self) -> u16 {
        let (yes, no) = (self.echo_text(b"1"), self.echo_text(b"0"));
        let mut parts = Vec::new();
        for _ in 0..self.random.between(1, 5) {
            let strings = self.test_strings();
            let list = self.fields(&strings);
            let name = self.random.pick(&["test", "test", "test", "true", "false", "cat", "env", "tes"]);
            let test = self.utility(name, list);
            parts.push(self.sheet.put(21, &[test, yes, no]));
        }
        let all = self.sequence(&parts);
        self.wrapped(all)
    }

    fn test_strings(&mut self) -> Vec<u16> {
        let words = [&b"-n"[..], b"-n", b"=", b"=", b"a", b"b", b"", b"ab"];
        let count = self.random.pick(&[0, 1, 2, 2, 2, 3, 3, 3, 3, 4, 5]);
        let mut chosen: Vec<&[u8]> = (0..count).map(|_| self.random.pick(&words)).collect();
        if count == 3 && self.random.chance(600) {
            chosen[1] = b"=";
            chosen[2] = chosen[0];
        }
        chosen.iter().map(|word| self.text(word)).collect()
    }

    /// Shifts about the number of arguments, in main or in a function.
    pub fn aimed_shift(&mut self) -> u16 {
        let count = self.random.between(0, 16);
        let words: Vec<Vec<u8>> = (0..count).map(|number| vec![b'a' + number as u8]).collect();
        let probe = self.probe();
        let mut parts = Vec::new();
        for _ in 0..self.random.between(1, 3) {
            let drop = self.random.pick(&[0, 1, count / 2, count, count + 1, count.max(1) - 1]);
            let shift = self.sheet.put(30, &[drop as u16]);
            parts.push(match self.random.below(3) {
                0 => shift,
                _ => self.sheet.put(21, &[shift, probe, probe]),
            });
        }
        parts.push(probe);
        let all = self.sequence(&parts);
        if self.random.chance(500) {
            self.arguments.extend(words);
            return self.wrapped(all);
        }
        let strings: Vec<u16> = words.iter().map(|word| self.text(word)).collect();
        let name = self.fresh_function(all);
        let call = self.call(&name, &strings);
        let all = self.sequence(&[call, probe]);
        self.wrapped(all)
    }
}
