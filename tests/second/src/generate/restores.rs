//! Holds inside one another, at each of which values, marks and arguments change and after each of
//! which all of them are looked at: what is not put back shows, at whatever depth.

use super::maker::Maker;

const VARIABLES: usize = 16;

impl Maker {
    pub fn aimed_restores(&mut self) -> u16 {
        self.stack_limit = 10;
        self.arguments.extend((0..16).map(|number| vec![b'A' + number]));
        let looks = [self.look_at_values(), self.look_at_arguments(), self.bare("env")];
        let few = self.some_changes();
        // Most programs look at one thing alone, so that the stream holds it all.
        let only = self.random.pick(&looks);
        let mixed = self.random.chance(300);
        // Holds of every sort, or subshells or calls alone.
        let sorts = self.random.pick(&[(0, 11), (0, 11), (0, 2), (6, 9)]);
        let mut inner = few;
        for _ in 0..self.random.pick(&[1, 2, 4, 7, 9, 10, 10, 10]) {
            let change = self.some_changes();
            let held = self.restoring(sorts, inner);
            let look = if mixed { self.random.pick(&looks) } else { only };
            inner = self.sequence(&[change, held, look]);
        }
        inner
    }

    /// All variables in one echo; each has a byte or none.
    fn look_at_values(&mut self) -> u16 {
        let shown: Vec<u16> = (0..VARIABLES).map(|number| self.variable(&format!("v{number}"))).collect();
        self.echo(&shown)
    }

    fn look_at_arguments(&mut self) -> u16 {
        let first = self.random.below(2);
        let shown: Vec<u16> = (first..first + 16).map(|number| self.argument(number)).collect();
        self.echo(&shown)
    }

    fn any_variable(&mut self) -> String {
        format!("v{}", self.random.below(VARIABLES))
    }

    fn any_word(&mut self) -> u16 {
        let letter = self.random.between(b'a' as usize, b'z' as usize) as u8;
        self.text(&[letter])
    }

    /// Some values, a mark, and at times the arguments.
    fn some_changes(&mut self) -> u16 {
        let mut parts = Vec::new();
        for _ in 0..self.random.between(1, 3) {
            let (name, word) = (self.any_variable(), self.any_word());
            parts.push(self.assign(&name, word));
        }
        if self.random.chance(600) {
            let name = self.any_variable();
            parts.push(self.export(&name));
        }
        if self.random.chance(300) {
            let shift = self.sheet.put(30, &[1]);
            // With no argument left it is false, which ends nothing here.
            parts.push(self.sheet.put(20, &[shift]));
            // And it leaves no false result behind.
            parts.push(self.sheet.put(30, &[0]));
        }
        self.sequence(&parts)
    }

    /// A hold around the instruction, of a sort between these two. Most let its output through.
    fn restoring(&mut self, sorts: (usize, usize), inner: u16) -> u16 {
        let yes = self.bare("true");
        match self.random.between(sorts.0, sorts.1) {
            0..=2 => self.sheet.put(19, &[inner]),
            3 => {
                let cat = self.bare("cat");
                self.sheet.put(23, &[inner, cat])
            }
            4 | 5 => self.sheet.put(23, &[yes, inner]),
            6..=9 => {
                let words: Vec<u16> =
                    (0..self.random.pick(&[0, 3, 12, 16, 16, 16])).map(|_| self.any_word()).collect();
                let name = self.fresh_function(inner);
                self.call(&name, &words)
            }
            10 => {
                // Its output is too long for a string.
                let quiet = self.sheet.put(22, &[inner]);
                let string = self.embedded(quiet);
                let name = self.any_variable();
                self.assign(&name, string)
            }
            _ => {
                let word = self.any_word();
                let list = self.fields(&[word]);
                let name = self.any_variable();
                self.for_each(&name, list, inner)
            }
        }
    }
}
