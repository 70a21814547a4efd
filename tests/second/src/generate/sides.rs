//! Pipes, subshells and embedded commands in which one part changes a piece of the context and the
//! next part, or what comes after, looks at just that piece.

use super::maker::Maker;

impl Maker {
    pub fn aimed_sides(&mut self) -> u16 {
        self.arguments.extend([b"1".to_vec(), b"2".to_vec(), b"3".to_vec()]);
        self.input = b"input".to_vec();
        self.stack_limit = 2;
        let word = self.text(b"old");
        let mut before = vec![self.assign("x", word)];
        if self.random.chance(300) {
            before.push(self.export("x"));
        }
        let (change, look) = (self.one_change(), self.one_look());
        let inside = self.random.chance(300);
        let changed = if inside { self.sequence(&[change, look]) } else { change };
        before.push(match self.random.below(5) {
            0 | 1 => self.sheet.put(23, &[changed, look]),
            2 => self.sheet.put(23, &[look, changed]),
            3 => self.sheet.put(19, &[changed]),
            _ => {
                let string = self.embedded(changed);
                self.assign("y", string)
            }
        });
        before.push(look);
        before.push(self.bare("cat"));
        let all = self.sequence(&before);
        match self.random.below(3) {
            0 => self.shown_answer(all),
            _ => all,
        }
    }

    /// Changes one piece: a value, a mark, the arguments, the result or the input.
    fn one_change(&mut self) -> u16 {
        let word = self.text(b"new");
        match self.random.below(6) {
            0 => self.assign("x", word),
            1 => self.export("x"),
            2 => self.sheet.put(30, &[1]),
            3 => {
                let yes = self.bare("true");
                self.sheet.put(20, &[yes])
            }
            4 => {
                let cat = self.bare("cat");
                self.sheet.put(22, &[cat])
            }
            _ => {
                let list = self.fields(&[word]);
                let body = self.bare("true");
                self.for_each("x", list, body)
            }
        }
    }

    /// Looks at one piece.
    fn one_look(&mut self) -> u16 {
        match self.random.below(5) {
            0 => {
                let shown = [self.argument(1), self.variable("x")];
                self.echo(&shown)
            }
            1 => self.bare("env"),
            2 => self.bare("cat"),
            3 => {
                let keep = self.sheet.put(29, &[2]);
                let string = self.embedded(keep);
                let assign = self.assign("z", string);
                self.shown_answer(assign)
            }
            _ => self.probe(),
        }
    }
}
