//! Programs whose names are alike: long ones that differ at the end, in one bit, in case or in
//! length, for variables, functions and utilities; and names with one byte of any value.

use super::maker::Maker;

const LETTERS: &[u8; 63] = b"abcdefghijklmnopqrstuvwxyzABCDEFGHIJKLMNOPQRSTUVWXYZ_0123456789";
/// So many of the letters may begin a name.
const BEGINNING: usize = 53;
const UTILITIES: [&str; 6] = ["true", "false", "echo", "test", "cat", "env"];

impl Maker {
    pub fn aimed_names(&mut self) -> u16 {
        match self.random.below(6) {
            0 => self.alike_variables(),
            1 => self.alike_functions(),
            2 => self.alike_utilities(),
            _ => self.any_byte_in_name(),
        }
    }

    /// A name, most often a long one.
    fn name(&mut self) -> String {
        let length = self.random.pick(&[1, 2, 5, 32, 60, 61, 62, 63, 63, 63]);
        let first = self.letter(true);
        let others: Vec<u8> = (1..length).map(|_| self.letter(false)).collect();
        text_of(&[&[first], &others[..]].concat())
    }

    fn letter(&mut self, first: bool) -> u8 {
        LETTERS[self.random.below(if first { BEGINNING } else { LETTERS.len() })]
    }

    /// Another name close to this one, now and then the same.
    fn near_name(&mut self, name: &str) -> String {
        let mut bytes = name.as_bytes().to_vec();
        let last = bytes.len() - 1;
        let anywhere = self.random.below(bytes.len());
        let place = self.random.pick(&[last, anywhere]);
        match self.random.below(9) {
            0 if last < 62 => bytes.push(self.letter(false)),
            1 if last > 0 => drop(bytes.pop()),
            2 => bytes[place] = bytes[place].to_ascii_uppercase(),
            3 => bytes[place] = bytes[place].to_ascii_lowercase(),
            4..=6 => {
                let other = bytes[place] ^ 1 << self.random.below(7);
                let fits = LETTERS.iter().position(|&letter| letter == other);
                if fits.is_some_and(|at| place > 0 || at < BEGINNING) {
                    bytes[place] = other;
                }
            }
            _ => bytes[place] = self.letter(place == 0),
        }
        text_of(&bytes)
    }

    /// Some names that are close to each other.
    fn near_names(&mut self) -> Vec<String> {
        let mut names = vec![self.name()];
        for _ in 0..self.random.between(1, 4) {
            let known = self.random.below(names.len());
            let near = self.near_name(&names[known].clone());
            names.push(near);
        }
        names
    }

    /// Each name has a value of its own; all are shown.
    fn alike_variables(&mut self) -> u16 {
        let names = self.near_names();
        let mut parts = Vec::new();
        for (number, name) in names.iter().enumerate() {
            let digit = self.text(&[b'0' + number as u8]);
            match self.random.below(5) {
                0 => parts.push(self.export(name)),
                1 => {
                    let list = self.fields(&[digit]);
                    let yes = self.bare("true");
                    parts.push(self.for_each(name, list, yes));
                }
                2 => {
                    parts.push(self.export(name));
                    parts.push(self.assign(name, digit));
                }
                _ => parts.push(self.assign(name, digit)),
            }
        }
        let shown: Vec<u16> = names.iter().rev().map(|name| self.variable(name)).collect();
        parts.push(self.echo(&shown));
        parts.push(self.bare("env"));
        self.sequence(&parts)
    }

    /// Each function shows which it is; names that no function has are called as well. A name may
    /// also be a variable's or a utility's.
    fn alike_functions(&mut self) -> u16 {
        self.stack_limit = self.random.between(1, 3) as u64;
        let names = self.near_names();
        let mut parts = vec![self.bare("true")];
        let zero = self.argument(0);
        for (number, name) in names.iter().enumerate().skip(self.random.below(2)) {
            if self.random.chance(250) {
                parts.push(self.export(name));
            }
            let known = self.functions.iter().any(|known| known == name.as_bytes());
            // A second one of a name is refused.
            if !known || self.random.chance(100) {
                let digit = self.text(&[b'0' + number as u8]);
                let body = self.echo(&[digit, zero]);
                self.function(name, body);
            }
        }
        for name in &names {
            let name = match self.random.below(3) {
                0 => self.near_name(name),
                _ => name.clone(),
            };
            let used = if self.random.chance(850) { self.call(&name, &[]) } else { self.bare(&name) };
            parts.push(self.shown_answer(used));
        }
        self.sequence(&parts)
    }

    /// Utilities and names close to theirs, with the fields that matter to some of them.
    fn alike_utilities(&mut self) -> u16 {
        self.input = b"in".to_vec();
        self.stack_limit = 1;
        let (sign, word) = (self.text(b"="), self.text(b"-n"));
        let export = self.export("x");
        let mut parts = vec![export, self.assign("x", word)];
        if self.random.chance(300) {
            let body = self.echo_text(b"function");
            let name = self.random.pick(&UTILITIES);
            self.function(name, body);
        }
        for _ in 0..self.random.between(3, 9) {
            let name = self.random.pick(&UTILITIES);
            let name = if self.random.chance(800) { self.near_name(name) } else { name.to_string() };
            let list = match self.random.below(3) {
                0 => self.empty(),
                1 => self.fields(&[word, sign, word]),
                _ => self.fields(&[word, sign]),
            };
            let kind = self.random.pick(&[24, 24, 24, 24, 25]);
            let name = self.text(name.as_bytes());
            let used = self.sheet.put(kind, &[name, list]);
            parts.push(self.shown_answer(used));
        }
        self.sequence(&parts)
    }

    /// Writes whether the instruction's result is true.
    pub fn shown_answer(&mut self, instruction: u16) -> u16 {
        let (yes, no) = (self.echo_text(b"1"), self.echo_text(b"0"));
        self.sheet.put(21, &[instruction, yes, no])
    }

    /// A name with a byte of any value in any place, in every kind of record that has a name.
    fn any_byte_in_name(&mut self) -> u16 {
        let mut name = self.name().into_bytes();
        let last = name.len() - 1;
        let anywhere = self.random.below(name.len());
        let place = self.random.pick(&[0, 0, last, anywhere, anywhere]);
        name[place] = self.random.byte();
        let name = self.sheet.text(&name);
        let (list, yes) = (self.empty(), self.bare("true"));
        let named = match self.random.below(7) {
            0 => {
                let variable = self.sheet.put(2, &[name]);
                self.echo(&[variable])
            }
            1 => self.sheet.put(16, &[name, name]),
            2 => self.sheet.put(17, &[name]),
            3 => self.sheet.put(24, &[name, list]),
            4 => self.sheet.put(25, &[name, list]),
            5 => self.sheet.put(26, &[name, list, yes]),
            _ => self.sheet.put(32, &[name, yes]),
        };
        // A function is no instruction.
        if self.random.chance(300) || self.sheet.records[named as usize].kind == 32 {
            return yes;
        }
        named
    }
}

fn text_of(letters: &[u8]) -> String {
    String::from_utf8_lossy(letters).into_owned()
}
