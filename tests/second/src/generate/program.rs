//! Random programs: every kind of record, records used twice, calls of functions known and unknown.

use super::maker::Maker;

const VARIABLES: [&str; 5] = ["x", "y", "z", "_v", "PATH2"];
const FUNCTIONS: [&str; 5] = ["f", "g", "h", "echo", "_k9"];
const CALLED: [&str; 7] = ["f", "g", "h", "echo", "_k9", "f", "unknown"];
const UTILITIES: [&str; 14] =
    ["true", "true", "true", "echo", "echo", "echo", "echo", "false", "test", "cat", "cat", "env", "ls", "f"];
const WORDS: [&[u8]; 14] =
    [b"", b"", b"a", b"b", b"-n", b"=", b"a b", b" a\tb\nc ", b"0", b"x", b"\x00\xff", b"  ", b"a", b"hello"];

impl Maker {
    /// Some functions, then an instruction for main.
    pub fn random_program(&mut self) -> u16 {
        self.random_surroundings();
        let functions = self.random.pick(&[0, 1, 1, 2, 3, 5]);
        for name in FUNCTIONS.iter().take(functions) {
            let depth = self.random.between(1, 4);
            let body = self.instruction(depth);
            self.function(name, body);
        }
        let depth = self.random.between(1, 6);
        let main = self.instruction(depth);
        match self.random.below(5) {
            0 | 1 => self.shown_after(main),
            2 => self.sheet.put(20, &[main]),
            _ => main,
        }
    }

    /// Puts an instruction under a condition and shows the context afterwards.
    fn shown_after(&mut self, instruction: u16) -> u16 {
        let probe = self.probe();
        self.sheet.put(21, &[instruction, probe, probe])
    }

    /// Arguments and input.
    pub fn random_surroundings(&mut self) {
        let arguments = self.random.pick(&[1, 1, 2, 3, 4, 6, 16, 17]);
        self.arguments = (0..arguments).map(|_| self.random_text()).collect();
        let length = self.random.pick(&[0, 0, 1, 5, 12, 62, 63, 64, 1_023, 1_024]);
        self.input = match self.random.below(3) {
            0 => self.random.bytes(length),
            1 => b"ab \n".iter().copied().cycle().take(length).collect(),
            _ => vec![b'i'; length],
        };
    }

    pub fn random_text(&mut self) -> Vec<u8> {
        match self.random.below(8) {
            0 => {
                let length = self.random.pick(&[1, 5, 31, 32, 62, 63]);
                self.word(length)
            }
            1 => {
                let length = self.random.below(20);
                self.random.bytes(length)
            }
            _ => self.random.pick(&WORDS).to_vec(),
        }
    }

    fn full(&self) -> bool {
        self.sheet.records.len() >= self.room
    }

    fn used_again(&mut self, made: fn(&Maker) -> &Vec<u16>) -> Option<u16> {
        if made(self).is_empty() || !self.random.chance(90) {
            return None;
        }
        let position = self.random.below(made(self).len());
        Some(made(self)[position])
    }

    pub fn string(&mut self, depth: usize) -> u16 {
        if let Some(again) = self.used_again(|maker| &maker.made.strings) {
            return again;
        }
        let deep = depth > 0 && !self.full();
        let number = match self.random.below(if deep { 12 } else { 6 }) {
            0 | 1 => {
                let text = self.random_text();
                self.text(&text)
            }
            2 | 3 => {
                let name = self.random.pick(&VARIABLES);
                self.variable(name)
            }
            4 | 5 => {
                let number = self.random.pick(&[0, 1, 1, 2, 2, 3, 16, 17, 255, 65_535]);
                self.argument(number)
            }
            6..=8 => {
                let (left, right) = (self.string(depth - 1), self.string(depth - 1));
                self.join(left, right)
            }
            _ => {
                let command = self.instruction(depth - 1);
                self.embedded(command)
            }
        };
        self.made.strings.push(number);
        number
    }

    pub fn list(&mut self, depth: usize) -> u16 {
        if let Some(again) = self.used_again(|maker| &maker.made.lists) {
            return again;
        }
        let fields = self.random.pick(&[0, 0, 1, 1, 1, 2, 2, 3, 5]);
        let mut list = self.empty();
        for _ in 0..fields {
            let string = self.string(depth.saturating_sub(1));
            let kind = self.random.pick(&[7, 7, 8]);
            list = self.sheet.put(kind, &[string, list]);
        }
        self.made.lists.push(list);
        list
    }

    pub fn instruction(&mut self, depth: usize) -> u16 {
        if let Some(again) = self.used_again(|maker| &maker.made.instructions) {
            return again;
        }
        let number = match depth {
            0 => self.leaf(0),
            _ if self.full() => self.leaf(0),
            _ => match self.random.below(10) {
                0 | 1 => self.leaf(depth),
                2..=4 => self.with_list(depth),
                _ => self.composed(depth - 1),
            },
        };
        self.made.instructions.push(number);
        number
    }

    fn leaf(&mut self, depth: usize) -> u16 {
        match self.random.below(12) {
            0 => {
                let code = self.random.below(3) as u16;
                self.sheet.put(28, &[code])
            }
            1 => {
                let code = self.random.below(3) as u16;
                self.sheet.put(29, &[code])
            }
            2 => {
                let count = self.random.pick(&[0, 1, 1, 1, 2, 3, 16, 65_535]);
                self.sheet.put(30, &[count])
            }
            3 => {
                let name = self.random.pick(&VARIABLES);
                self.export(name)
            }
            4 | 5 => {
                let name = self.random.pick(&VARIABLES);
                let string = self.string(depth);
                self.assign(name, string)
            }
            _ => {
                let name = self.random.pick(&UTILITIES);
                self.bare(name)
            }
        }
    }

    fn with_list(&mut self, depth: usize) -> u16 {
        match self.random.below(8) {
            0..=3 => {
                let list = self.list(depth);
                let name = self.random.pick(&UTILITIES);
                self.utility(name, list)
            }
            4 => {
                let left = self.string(depth);
                let right = self.string(depth);
                match self.random.below(2) {
                    0 => self.is_equal(left, right),
                    _ => self.is_set(left),
                }
            }
            5 | 6 => {
                let list = self.list(depth);
                let name = self.random.pick(&CALLED);
                let name = self.text(name.as_bytes());
                self.sheet.put(25, &[name, list])
            }
            _ => {
                let list = self.list(depth);
                let body = self.instruction(depth - 1);
                let name = self.random.pick(&VARIABLES);
                self.for_each(name, list, body)
            }
        }
    }

    fn composed(&mut self, depth: usize) -> u16 {
        let kind = self.random.pick(&[18, 18, 18, 18, 19, 20, 21, 21, 22, 23, 23, 27, 16]);
        match kind {
            16 => {
                let command = self.instruction(depth);
                let string = self.embedded(command);
                let name = self.random.pick(&VARIABLES);
                self.assign(name, string)
            }
            19 | 20 | 22 => {
                let inner = self.instruction(depth);
                self.sheet.put(kind, &[inner])
            }
            21 => {
                let parts = [self.instruction(depth), self.instruction(depth), self.instruction(depth)];
                self.sheet.put(kind, &parts)
            }
            _ => {
                let parts = [self.instruction(depth), self.instruction(depth)];
                self.sheet.put(kind, &parts)
            }
        }
    }
}
