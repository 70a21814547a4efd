//! Programs aimed at the limits on strings (63 bytes), fields (16) and at errors in expressions.

use super::maker::Maker;

impl Maker {
    /// A string of about 63 bytes out of parts of every sort.
    pub fn aimed_string(&mut self) -> u16 {
        let mut left = self.random.pick(&[62, 63, 63, 63, 64, 64, 64, 65, 100]);
        let mut before = Vec::new();
        let mut parts = Vec::new();
        while left > 0 {
            let most = left.min(63);
            let length = self.random.pick(&[1, 2, most / 2 + 1, most, most]).min(most);
            parts.push(self.part(length, &mut before));
            left -= length;
        }
        let string = self.joined(&parts);
        let user = self.user_of(string);
        before.push(user);
        let all = self.sequence(&before);
        self.wrapped(all)
    }

    /// A string of that length; assignments it relies on go to `before`.
    fn part(&mut self, length: usize, before: &mut Vec<u16>) -> u16 {
        let word = self.word(length);
        match self.random.below(6) {
            0 if self.arguments.len() < 17 => {
                self.arguments.push(word);
                self.argument(self.arguments.len() - 1)
            }
            1 => {
                let name = format!("v{}", before.len() % 8);
                let text = self.text(&word);
                before.push(self.assign(&name, text));
                self.variable(&name)
            }
            2 => {
                let echo = self.echo_text(&word[1..]);
                self.embedded(echo)
            }
            3 if self.input.is_empty() => {
                self.input = word;
                let cat = self.bare("cat");
                self.embedded(cat)
            }
            _ => self.text(&word),
        }
    }

    /// Joins the parts in their order, in a tree of any shape.
    pub fn joined(&mut self, parts: &[u16]) -> u16 {
        match parts {
            [] => self.text(b""),
            [single] => *single,
            _ => {
                let middle = self.random.between(1, parts.len() - 1);
                let left = self.joined(&parts[..middle]);
                let right = self.joined(&parts[middle..]);
                self.join(left, right)
            }
        }
    }

    /// An instruction with this string in it.
    pub fn user_of(&mut self, string: u16) -> u16 {
        match self.random.below(6) {
            0 | 1 => self.assign("x", string),
            2 => self.is_set(string),
            3 => {
                let body = self.bare("true");
                let list = self.fields(&[string]);
                self.for_each("x", list, body)
            }
            4 => self.call("unknown", &[string]),
            _ => self.echo(&[string]),
        }
    }

    /// An embedded command that writes around 63 bytes and ends in any way, with more joined to it.
    pub fn aimed_embedded(&mut self) -> u16 {
        let length = self.random.pick(&[0, 61, 62, 62, 63, 63]);
        let word = self.word(length);
        let mut parts = vec![self.echo_text(&word)];
        if self.random.chance(300) {
            let more = self.echo_text(b"");
            parts.push(more);
        }
        parts.push(self.any_end());
        let command = self.sequence(&parts);
        let mut string = self.embedded(command);
        if self.random.chance(500) {
            let other = match self.random.below(3) {
                0 => self.text(b"z"),
                _ => {
                    let end = self.any_end();
                    self.embedded(end)
                }
            };
            string = match self.random.below(2) {
                0 => self.join(string, other),
                _ => self.join(other, string),
            };
        }
        let user = self.user_of(string);
        self.wrapped(user)
    }

    /// An instruction that ends in any behaviour with any result.
    pub fn any_end(&mut self) -> u16 {
        match self.random.below(11) {
            0 => self.bare("true"),
            1 => self.bare("false"),
            2 => {
                let yes = self.bare("true");
                self.sheet.put(20, &[yes])
            }
            3 | 4 => {
                let code = self.random.below(3) as u16;
                self.sheet.put(28, &[code])
            }
            5 | 6 => {
                let code = self.random.below(3) as u16;
                self.sheet.put(29, &[code])
            }
            7 => self.bare("cat"),
            8 => self.failing(),
            _ => self.endless(),
        }
    }

    /// A list of about 16 fields by field and split, sometimes with an error among them.
    pub fn aimed_list(&mut self) -> u16 {
        let mut left = self.random.pick(&[15, 16, 16, 16, 17, 17, 17, 18, 32]);
        let mut list = self.empty();
        while left > 0 {
            let count = match self.random.below(3) {
                0 => self.random.between(0, left.min(20)),
                _ => 1,
            };
            list = self.adding(count, list);
            left -= count;
        }
        let user = match self.random.below(6) {
            0 => self.utility("test", list),
            1 => self.utility("cat", list),
            2 => {
                let body = self.probe();
                let name = self.fresh_function(body);
                let name = self.text(name.as_bytes());
                self.sheet.put(25, &[name, list])
            }
            3 | 4 => {
                let body = self.any_body();
                self.for_each("x", list, body)
            }
            _ => self.utility("echo", list),
        };
        self.wrapped(user)
    }

    /// A list record in front of the rest that adds so many fields.
    fn adding(&mut self, count: usize, rest: u16) -> u16 {
        if count == 1 && self.random.chance(700) {
            let string = match self.random.below(12) {
                0 => {
                    let end = self.any_end();
                    self.embedded(end)
                }
                1 => self.argument(0),
                2 => self.text(b""),
                _ => self.text(b"a"),
            };
            return self.sheet.put(7, &[string, rest]);
        }
        let mut text = Vec::new();
        if self.random.chance(300) {
            text.push(b' ');
        }
        for _ in 0..count {
            text.push(self.random.pick(b"abc\x00\x0b\x0d"));
            text.push(self.random.pick(b" \t\n "));
            if self.random.chance(100) {
                text.push(b'\n');
            }
        }
        if self.random.chance(500) {
            text.pop();
        }
        text.truncate(62);
        let string = match self.random.below(4) {
            0 => {
                let echo = self.echo_text(&text);
                self.embedded(echo)
            }
            _ => self.text(&text),
        };
        self.split(string, rest)
    }

    fn any_body(&mut self) -> u16 {
        match self.random.below(4) {
            0 => self.any_end(),
            1 => self.bare("true"),
            _ => {
                let variable = self.variable("x");
                self.echo(&[variable])
            }
        }
    }
}
