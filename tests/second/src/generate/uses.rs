//! Uses of a string that show its value, and newlines that no embedded command loses.

use super::endings::Stream;
use super::maker::Maker;

impl Maker {
    pub fn shown_use(&mut self, string: u16) -> u16 {
        match self.random.below(12) {
            0..=3 => self.assign("x", string),
            4 => {
                let test = self.is_set(string);
                self.shown_answer(test)
            }
            5 => {
                let joined = self.joined_somehow(string);
                self.assign("x", joined)
            }
            6 => {
                // Whether its flag is false shows even where the value does not.
                let assign = self.assign("x", string);
                self.shown_answer(assign)
            }
            7 => {
                let echo = self.echo(&[string]);
                let cat = self.bare("cat");
                self.sheet.put(23, &[echo, cat])
            }
            8 => {
                let echo = self.echo(&[string]);
                let outer = self.embedded(echo);
                self.assign("x", outer)
            }
            _ => {
                let kind = self.random.pick(&[7, 7, 8]);
                let end = self.text(b">");
                let rest = self.fields(&[end]);
                let list = self.sheet.put(kind, &[string, rest]);
                self.shown_list(list)
            }
        }
    }

    /// Joined with itself, or with a text on either side.
    fn joined_somehow(&mut self, string: u16) -> u16 {
        match self.random.below(3) {
            0 => self.join(string, string),
            _ => self.with_text(string),
        }
    }

    pub fn with_text(&mut self, string: u16) -> u16 {
        let text = self.random.pick(&[&b"t"[..], b"\n", b"t\n", b"\nt", b"\n\n", b"\r"]);
        let text = self.text(text);
        match self.random.below(2) {
            0 => self.join(string, text),
            _ => self.join(text, string),
        }
    }

    /// An instruction that shows every field.
    pub fn shown_list(&mut self, list: u16) -> u16 {
        match self.random.below(4) {
            0 => self.utility("echo", list),
            1 => {
                let (mark, field) = (self.text(b"<"), self.variable("x"));
                let body = self.echo(&[mark, field]);
                self.for_each("x", list, body)
            }
            2 => {
                let body = self.bare("true");
                self.for_each("x", list, body)
            }
            _ => {
                self.stack_limit = self.stack_limit.max(2);
                let shown: Vec<u16> = (1..=4).map(|number| self.argument(number)).collect();
                let (echo, assign) = (self.echo(&shown), self.assign("y", shown[0]));
                let body = self.sequence(&[assign, echo]);
                let name = self.fresh_function(body);
                let name = self.text(name.as_bytes());
                self.sheet.put(25, &[name, list])
            }
        }
    }

    /// Texts, variables, arguments, the input, pipes and the output keep the newlines at their ends.
    pub fn kept_newlines(&mut self) -> u16 {
        let stream = self.short_stream();
        let bytes = stream.bytes();
        let string = match self.random.below(4) {
            0 => {
                self.arguments.push(bytes.clone());
                self.argument(1)
            }
            _ => self.text(&bytes),
        };
        let variable = self.variable("x");
        let mut parts = vec![self.assign("x", string)];
        for _ in 0..self.random.between(1, 3) {
            let shown = self.random.pick(&[string, variable]);
            parts.push(self.kept_use(shown, &stream));
        }
        if self.random.chance(300) {
            let echo = self.echo(&[variable]);
            let cut = self.embedded(echo);
            parts.push(self.assign("z", cut));
        }
        self.sequence(&parts)
    }

    fn kept_use(&mut self, string: u16, stream: &Stream) -> u16 {
        let cat = self.bare("cat");
        match self.random.below(8) {
            0 => self.assign("y", string),
            1 => self.only_newlines(stream.newlines + 1),
            2 => {
                let writer = self.writing(stream);
                self.sheet.put(23, &[writer, cat])
            }
            3 => {
                // As long as can be without an embedded command around it.
                let full = self.nearly_full_stream();
                self.writing(&full)
            }
            4 => {
                let (export, env) = (self.export("x"), self.bare("env"));
                self.sequence(&[export, env])
            }
            5 => {
                let (text, rest) = (self.text(&stream.kept), self.text(b"\n"));
                let right = self.random.pick(&[text, rest]);
                let test = self.is_equal(string, right);
                self.shown_answer(test)
            }
            6 => {
                // One value out of a pipe's stream, which still has its newlines.
                let writer = self.writing(stream);
                let value = self.embedded(cat);
                let shown = self.shown_use(value);
                self.sheet.put(23, &[writer, shown])
            }
            _ => {
                let list = self.fields(&[string]);
                self.shown_list(list)
            }
        }
    }
}
