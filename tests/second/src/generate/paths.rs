//! Programs whose arguments say which function calls which: any stack of open calls can be asked for,
//! down to the last level.

use super::maker::Maker;

const DEEPEST: usize = 10;

impl Maker {
    pub fn paths(&mut self) -> u16 {
        self.stack_limit = self.random.pick(&[10, 10, 10, 10, 9, 5]);
        self.budget = 9_000;
        let count = self.random.pick(&[1, 2, 2, 3, 3, 5, 8]);
        let names = self.function_names(count);
        let calls = self.calls_by_first_letter(&names);
        for name in &names {
            // Steps of its own, so that no two functions count alike.
            let own = self.lasting(self.functions.len() + 1);
            let body = self.sequence(&[own, calls]);
            self.uncalled();
            self.function(name, body);
        }
        let parts: Vec<u16> = (0..self.random.between(1, 4)).map(|_| self.one_path(&names)).collect();
        self.sequence(&parts)
    }

    /// Calls the function whose letter is the first argument, with the others; the leaf without one.
    fn calls_by_first_letter(&mut self, names: &[String]) -> u16 {
        let list = self.handed_on(DEEPEST);
        let first = self.argument(1);
        let mut otherwise = match self.random.below(6) {
            0 => self.any_end(),
            1 => self.call("unknown", &[]),
            _ => self.bare("true"),
        };
        for (number, name) in names.iter().enumerate() {
            let letter = self.text(&[b'a' + number as u8]);
            let test = self.is_equal(first, letter);
            let name = self.text(name.as_bytes());
            let call = self.sheet.put(25, &[name, list]);
            let call = if self.random.chance(150) { self.unheld(call) } else { call };
            otherwise = self.sheet.put(21, &[test, call, otherwise]);
        }
        otherwise
    }

    /// A call of any function with letters for those below it. The last ones may be alike, so that an
    /// edge is first met, or met again, at the deepest levels alone.
    fn one_path(&mut self, names: &[String]) -> u16 {
        let below = self.random.pick(&[1, 3, 6, 8, 9, 9, 9, 10]);
        let mut letters: Vec<u8> = (0..below).map(|_| b'a' + self.random.below(names.len()) as u8).collect();
        if self.random.chance(400) {
            let alike = self.random.between(1, 3).min(below);
            let last = letters[below - 1];
            letters[below - alike..].fill(last);
        }
        let words: Vec<u16> = letters.iter().map(|&letter| self.text(&[letter])).collect();
        let begin = self.random.below(names.len());
        self.call(&names[begin].clone(), &words)
    }
}
