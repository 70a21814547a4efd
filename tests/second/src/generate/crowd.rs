//! Programs of many functions that call each other down to the stack limit, through high numbers.

use super::maker::Maker;

impl Maker {
    /// Every function calls one or two others while it has arguments.
    pub fn aimed_crowd(&mut self) -> u16 {
        self.stack_limit = self.random.pick(&[10, 10, 10, 9, 8]);
        self.budget = 3_000;
        let count = self.random.pick(&[20, 21, 24, 30, 31, 32, 32, 32]);
        let arguments = self.random.pick(&[8, 9, 9, 9, 10]);
        let list = self.handed_on(arguments);
        let first = self.argument(1);
        let test = self.is_set(first);
        let mut leaf = self.bare("true");
        for number in 0..count {
            // Steps of its own, so that no two functions count alike.
            if number % 4 == 0 {
                leaf = self.sheet.put(20, &[leaf]);
            }
            let further = self.further_in_crowd(number, count, list);
            let body = self.sheet.put(21, &[test, further, leaf]);
            self.function(&format!("c{number}"), body);
        }
        let words: Vec<u16> = (0..arguments).map(|_| self.text(b"a")).collect();
        let begin = self.random.below(count);
        let call = self.call(&format!("c{begin}"), &words);
        if self.random.chance(500) {
            return call;
        }
        let again = self.random.below(count);
        let second = self.call(&format!("c{again}"), &words);
        // The first leaves its result alone behind.
        self.sheet.put(21, &[call, second, second])
    }

    /// All arguments but the first, as far as there are any.
    pub fn handed_on(&mut self, arguments: usize) -> u16 {
        let strings: Vec<u16> = (2..=arguments).map(|number| self.argument(number)).collect();
        strings.iter().rev().fold(self.empty(), |rest, &string| self.split(string, rest))
    }

    /// A call of the next, of any, or of one among the last.
    fn further_in_crowd(&mut self, number: usize, count: usize, list: u16) -> u16 {
        let next = match self.random.below(4) {
            0 => (number + 1) % count,
            1 => self.random.below(count),
            2 => count - 1 - self.random.below(3),
            _ => self.random.between(count / 2, count - 1),
        };
        let name = self.text(format!("c{next}").as_bytes());
        let call = self.sheet.put(25, &[name, list]);
        match self.random.below(12) {
            0 => self.sheet.put(20, &[call]),
            1 => {
                let shift = self.sheet.put(30, &[1]);
                self.sequence(&[shift, call])
            }
            _ => call,
        }
    }
}
