//! Programs whose end hangs on the loop limit or the stack limit, wherever in a program it is met.

use super::maker::Maker;

impl Maker {
    /// Loops and calls that take much of a limit, in any surroundings, and mostly something after them.
    pub fn aimed_limits(&mut self) -> u16 {
        let mut limited = match self.random.below(6) {
            0 | 1 => self.aimed_loop(),
            2 | 3 => self.aimed_calls(),
            4 => {
                let (loops, calls) = (self.aimed_loop(), self.aimed_calls());
                self.in_either_order(loops, calls)
            }
            _ => {
                let inner = self.aimed_loop();
                self.turns_around(inner)
            }
        };
        for _ in 0..self.random.below(4) {
            limited = match self.random.below(3) {
                0 => self.held(limited),
                1 => self.unheld(limited),
                _ => self.in_known_call(limited),
            };
        }
        self.followed(limited)
    }

    fn in_either_order(&mut self, one: u16, other: u16) -> u16 {
        match self.random.below(2) {
            0 => self.sequence(&[one, other]),
            _ => self.sequence(&[other, one]),
        }
    }

    /// A while around the instruction that turns a few times, as each while counts for itself.
    fn turns_around(&mut self, inner: u16) -> u16 {
        let (seen, mark) = (self.variable("turns"), self.text(b"t"));
        let goal = self.random.between(1, 4);
        let goal = self.text(&vec![b't'; goal]);
        let reached = self.is_equal(seen, goal);
        let test = self.sheet.put(20, &[reached]);
        let longer = self.join(seen, mark);
        let count = self.assign("turns", longer);
        let body = self.sequence(&[count, inner]);
        self.sheet.put(27, &[test, body])
    }

    /// As an embedded command among the arguments of a function that there is.
    fn in_known_call(&mut self, inner: u16) -> u16 {
        if self.functions.len() >= 32 {
            return inner;
        }
        let (string, word) = (self.embedded(inner), self.text(b"w"));
        let strings = match self.random.below(4) {
            0 => vec![word, string],
            1 => vec![string, word],
            2 => vec![self.join(word, string)],
            _ => vec![string],
        };
        let body = self.probe();
        let name = self.fresh_function(body);
        self.call(&name, &strings)
    }

    /// What comes after shows whether the instruction was Normal, and what it left.
    fn followed(&mut self, instruction: u16) -> u16 {
        let probe = self.probe();
        match self.random.below(4) {
            0 => instruction,
            1 | 2 => self.sequence(&[instruction, probe]),
            _ => self.sheet.put(21, &[instruction, probe, probe]),
        }
    }
}
