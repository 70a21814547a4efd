//! Programs aimed at holds, at the stack limit, and at calls in every place.

use super::maker::Maker;

const NAMES: [&str; 3] = ["f", "g", "h"];

impl Maker {
    /// About ten holds inside one another.
    pub fn aimed_holds(&mut self) -> u16 {
        self.stack_limit = self.random.pick(&[10, 10, 10, 9, 3]);
        let depth = self.random.pick(&[9, 10, 10, 10, 11, 11, 11, 12]);
        let mut inner = self.innermost();
        for _ in 0..depth {
            inner = self.held(inner);
            if self.random.chance(150) {
                inner = self.unheld(inner);
            }
        }
        match self.random.below(4) {
            // A hold that is not released shows on the second round.
            0 => self.sequence(&[inner, inner]),
            1 => self.sheet.put(21, &[inner, inner, inner]),
            _ => inner,
        }
    }

    fn innermost(&mut self) -> u16 {
        match self.random.below(5) {
            0 => {
                let list = self.empty();
                let body = self.bare("true");
                self.for_each("z", list, body)
            }
            1 => self.any_end(),
            2 => self.call("unknown", &[]),
            3 => {
                let word = self.text(b"w");
                self.assign("z", word)
            }
            _ => self.echo_text(b"in"),
        }
    }

    /// One to three functions that call each other, once for each argument or without end.
    pub fn aimed_calls(&mut self) -> u16 {
        let ring = self.random.between(1, 3);
        let arguments = self.random.between(0, 11);
        self.stack_limit = (arguments + self.random.below(4)).saturating_sub(1).min(10) as u64;
        let bounded = self.random.chance(800);
        for position in 0..ring {
            let next = NAMES[(position + 1) % ring];
            let body = self.recursive_body(next, arguments, bounded);
            self.function(NAMES[position], body);
        }
        let words: Vec<u16> = (0..arguments).map(|_| self.text(b"a")).collect();
        let call = self.call(NAMES[0], &words);
        let main = match self.random.below(4) {
            0 => self.sequence(&[call, call]),
            1 => {
                let probe = self.probe();
                self.sequence(&[call, probe])
            }
            _ => call,
        };
        self.wrapped(main)
    }

    fn recursive_body(&mut self, next: &str, arguments: usize, bounded: bool) -> u16 {
        let handed = self.random.pick(&[2, 4, arguments.max(2), arguments.max(2)]);
        let further = self.further_call(next, handed);
        let further = self.around_call(further, next);
        if !bounded {
            return further;
        }
        let first = self.argument(1);
        let test = self.is_set(first);
        let leaf = match self.random.below(3) {
            0 => self.any_end(),
            1 => self.probe(),
            _ => self.bare("true"),
        };
        self.sheet.put(21, &[test, further, leaf])
    }

    /// Hands on all arguments but the first, with or without shift.
    fn further_call(&mut self, next: &str, handed: usize) -> u16 {
        let shifting = self.random.chance(300);
        let first = if shifting { 1 } else { 2 };
        let strings: Vec<u16> = (first..first + handed - 1).map(|n| self.argument(n)).collect();
        let list = strings.iter().rev().fold(self.empty(), |rest, &string| {
            // A split passes nothing where the argument is empty.
            let kind = self.random.pick(&[7, 8, 8]);
            self.sheet.put(kind, &[string, rest])
        });
        let name = self.text(next.as_bytes());
        let call = self.sheet.put(25, &[name, list]);
        if shifting {
            let shift = self.sheet.put(30, &[1]);
            return self.sequence(&[shift, call]);
        }
        call
    }

    /// The place of the further call in the body.
    fn around_call(&mut self, call: u16, next: &str) -> u16 {
        let other = self.any_end();
        let echo = self.echo_text(b"e");
        match self.random.below(12) {
            0 => self.sheet.put(21, &[call, echo, other]),
            1 => self.sheet.put(20, &[call]),
            2 => self.sequence(&[echo, call]),
            3 => self.sequence(&[call, other]),
            4 => self.sequence(&[call, call]),
            5 => {
                let string = self.embedded(call);
                let second = self.argument(2);
                self.call(next, &[second, string])
            }
            6 => self.held(call),
            7 => self.unheld(call),
            8 => {
                let string = self.embedded(call);
                self.is_set(string)
            }
            9 => self.sheet.put(27, &[call, other]),
            _ => call,
        }
    }
}
