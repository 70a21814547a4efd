//! Puts an instruction into surroundings, so that an aimed program meets its limit in many places.

use super::maker::Maker;

impl Maker {
    /// Some layers of any sort, most often few.
    pub fn wrapped(&mut self, mut instruction: u16) -> u16 {
        for _ in 0..self.random.pick(&[0, 0, 0, 1, 1, 2, 3]) {
            instruction = match self.random.below(2) {
                0 => self.held(instruction),
                _ => self.unheld(instruction),
            };
        }
        instruction
    }

    /// One layer that opens a hold.
    pub fn held(&mut self, inner: u16) -> u16 {
        match self.random.below(9) {
            0 => self.sheet.put(19, &[inner]),
            1 => self.sheet.put(22, &[inner]),
            2 => {
                let other = self.random_side();
                self.sheet.put(23, &[inner, other])
            }
            3 => {
                let other = self.random_side();
                self.sheet.put(23, &[other, inner])
            }
            4 | 5 if self.functions.len() < 32 => {
                let name = self.fresh_function(inner);
                let word = self.text(b"arg");
                self.call(&name, &[word])
            }
            6 => {
                let word = self.text(b"f");
                let list = self.fields(&[word]);
                self.for_each("y", list, inner)
            }
            _ => self.in_string(inner),
        }
    }

    /// As an embedded command, in an assignment, a field, a split, a call or a for.
    fn in_string(&mut self, inner: u16) -> u16 {
        let mut string = self.embedded(inner);
        if self.random.chance(300) {
            let word = self.text(b"j");
            string = match self.random.below(2) {
                0 => self.join(string, word),
                _ => self.join(word, string),
            };
        }
        let list = match self.random.below(2) {
            0 => self.fields(&[string]),
            _ => {
                let rest = self.empty();
                self.split(string, rest)
            }
        };
        match self.random.below(6) {
            0 | 1 => self.assign("x", string),
            2 => {
                let name = self.text(b"unknown");
                self.sheet.put(25, &[name, list])
            }
            3 => {
                let body = self.bare("true");
                self.for_each("x", list, body)
            }
            _ => self.utility("echo", list),
        }
    }

    /// The other side of a pipe.
    fn random_side(&mut self) -> u16 {
        match self.random.below(5) {
            0 => self.bare("true"),
            1 => self.bare("false"),
            2 => self.echo_text(b"p"),
            3 => self.assign_word(),
            _ => self.bare("cat"),
        }
    }

    fn assign_word(&mut self) -> u16 {
        let length = self.random.below(4);
        let word = self.word(length);
        let word = self.text(&word);
        self.assign("x", word)
    }

    /// One layer that opens none.
    pub fn unheld(&mut self, inner: u16) -> u16 {
        let other = self.random_side();
        match self.random.below(9) {
            0 => self.sheet.put(20, &[inner]),
            1 => self.sheet.put(21, &[inner, other, other]),
            2 => {
                let yes = self.bare("true");
                self.sheet.put(21, &[yes, inner, other])
            }
            3 => {
                let no = self.bare("false");
                self.sheet.put(21, &[no, other, inner])
            }
            4 => self.sheet.put(18, &[other, inner]),
            5 => self.sheet.put(18, &[inner, other]),
            6 => self.sheet.put(27, &[inner, other]),
            7 => {
                let no = self.bare("false");
                let until = self.sheet.put(18, &[inner, no]);
                self.sheet.put(27, &[until, other])
            }
            _ => {
                let argument = self.argument(1);
                let test = self.is_set(argument);
                let shift = self.sheet.put(30, &[1]);
                let body = self.sheet.put(18, &[inner, shift]);
                self.sheet.put(27, &[test, body])
            }
        }
    }
}
