//! Programs aimed at loops and the loop limit, at contexts kept and dropped, and at depth.

use super::maker::Maker;

impl Maker {
    /// A while whose number of bodies lies about the loop limit.
    pub fn aimed_loop(&mut self) -> u16 {
        let turns = self.random.below(13);
        self.loop_limit = (turns + self.random.below(3)).saturating_sub(1) as u64;
        let body = self.loop_body();
        let whole = match self.random.below(3) {
            0 => {
                self.arguments.extend(vec![b"a".to_vec(); turns]);
                let argument = self.argument(1);
                let test = self.is_set(argument);
                let shift = self.sheet.put(30, &[1]);
                let body = self.in_order(shift, body);
                self.sheet.put(27, &[test, body])
            }
            1 => {
                let (test, longer) = self.growing(turns);
                let body = self.in_order(longer, body);
                self.sheet.put(27, &[test, body])
            }
            _ => {
                let (test, longer) = self.growing(turns);
                let test = self.sequence(&[longer, test]);
                self.sheet.put(27, &[test, body])
            }
        };
        let whole = if self.random.chance(250) { self.twice(whole) } else { whole };
        self.wrapped(whole)
    }

    fn in_order(&mut self, first: u16, second: u16) -> u16 {
        match self.random.below(2) {
            0 => self.sequence(&[first, second]),
            _ => self.sequence(&[second, first]),
        }
    }

    /// A test that holds until a variable has grown to that length, and the assignment that grows it.
    fn growing(&mut self, length: usize) -> (u16, u16) {
        let variable = self.variable("count");
        let goal = self.text(&vec![b'i'; length]);
        let equal = self.is_equal(variable, goal);
        let test = self.sheet.put(20, &[equal]);
        let mark = self.text(b"i");
        let longer = self.join(variable, mark);
        (test, self.assign("count", longer))
    }

    fn loop_body(&mut self) -> u16 {
        match self.random.below(8) {
            0 => self.any_end(),
            6 | 7 => {
                // False at one turn, and the loop goes on.
                let variable = self.variable("count");
                let turn = self.random.below(5);
                let text = self.text(&vec![b'i'; turn]);
                let test = self.is_equal(variable, text);
                self.sheet.put(20, &[test])
            }
            1 => {
                // Ends the loop from inside at some turn.
                let variable = self.variable("count");
                let turn = self.random.below(5);
                let text = self.text(&vec![b'i'; turn]);
                let test = self.is_equal(variable, text);
                let (end, yes) = (self.any_end(), self.bare("true"));
                self.sheet.put(21, &[test, end, yes])
            }
            2 => {
                let yes = self.bare("true");
                self.sheet.put(20, &[yes])
            }
            3 => self.echo_text(b"turn"),
            _ => self.bare("true"),
        }
    }

    /// Runs the instruction for two fields, as the limit counts for each while by itself.
    fn twice(&mut self, instruction: u16) -> u16 {
        let words = [self.text(b"one"), self.text(b"two")];
        let list = self.fields(&words);
        let nothing = self.text(b"");
        let reset = self.assign("count", nothing);
        let body = self.sequence(&[reset, instruction]);
        self.for_each("x", list, body)
    }

    /// Changes of context in every place, shown in between.
    pub fn aimed_context(&mut self) -> u16 {
        self.random_surroundings();
        self.stack_limit = self.random.pick(&[1, 2, 10]);
        let body = self.changes();
        self.function("f", body);
        let mut parts = Vec::new();
        for _ in 0..self.random.between(2, 7) {
            let change = self.changes();
            parts.push(match self.random.below(3) {
                0 => self.held(change),
                1 => self.unheld(change),
                _ => change,
            });
            parts.push(if self.random.chance(700) { self.probe() } else { self.bare("cat") });
        }
        let all = self.sequence(&parts);
        match self.random.below(3) {
            0 => all,
            1 => self.sheet.put(20, &[all]),
            _ => {
                let end = self.any_end();
                self.sheet.put(21, &[all, end, end])
            }
        }
    }

    fn changes(&mut self) -> u16 {
        let length = self.random.below(3);
        let word = self.word(length);
        let word = self.text(&word);
        match self.random.below(10) {
            0 | 1 => self.assign("x", word),
            2 => self.assign("y", word),
            3 => self.export("x"),
            4 => self.export("y"),
            5 => {
                let count = self.random.below(3) as u16;
                self.sheet.put(30, &[count])
            }
            6 => {
                let cat = self.bare("cat");
                let string = self.embedded(cat);
                self.assign("x", string)
            }
            7 => self.call("f", &[word]),
            8 => self.any_end(),
            _ => {
                let list = self.fields(&[word, word]);
                let body = self.bare("true");
                self.for_each("y", list, body)
            }
        }
    }

    /// A long chain of records of one kind, sometimes in a function that calls itself.
    pub fn deep(&mut self) -> u16 {
        let length = self.random.pick(&[30, 100, 400]);
        let name = self.text(b"deep");
        let list = self.empty();
        let mut inner = match self.random.below(2) {
            0 => self.sheet.put(25, &[name, list]),
            _ => self.bare("true"),
        };
        let string = self.text(b"");
        let kind = self.random.pick(&[20, 18, 21, 5, 8, 27]);
        let yes = self.bare("true");
        let (mut join, mut split) = (string, list);
        for _ in 0..length {
            match kind {
                20 => inner = self.sheet.put(20, &[inner]),
                18 => inner = self.sheet.put(18, &[inner, yes]),
                21 => inner = self.sheet.put(21, &[inner, yes, yes]),
                5 => join = self.join(join, string),
                8 => split = self.split(string, split),
                _ => inner = self.sheet.put(27, &[inner, inner]),
            }
        }
        let with_join = self.assign("x", join);
        let with_split = self.utility("true", split);
        let body = self.sequence(&[with_join, with_split, inner]);
        self.function("deep", body);
        self.budget = self.random.pick(&[1_500, 9_000]);
        self.sheet.put(25, &[name, list])
    }

    /// Each record used twice by the next.
    pub fn shared(&mut self) -> u16 {
        let mut inner = self.any_end();
        if self.random.chance(700) {
            inner = self.bare("true");
        }
        for _ in 0..self.random.between(2, 10) {
            inner = match self.random.below(6) {
                0 => self.sheet.put(21, &[inner, inner, inner]),
                1 => self.sheet.put(23, &[inner, inner]),
                2 => self.sheet.put(27, &[inner, inner]),
                _ => self.sheet.put(18, &[inner, inner]),
            };
        }
        inner
    }
}
