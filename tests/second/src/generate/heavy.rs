//! Programs that keep as much at once as the limits allow: sixteen long variables, sixteen long
//! arguments, full streams and unfinished lists at every one of ten holds.

use super::maker::Maker;

impl Maker {
    pub fn heavy(&mut self) -> u16 {
        self.stack_limit = 10;
        self.budget = 1_500;
        self.arguments = (0..17).map(|_| self.word(63)).collect();
        self.input = self.random.bytes(1_024);
        let mut parts: Vec<u16> = (0..16).map(|number| self.fill_variable(number)).collect();
        parts.push(self.export("v3"));
        let mut inner = self.echo_text(b"in");
        for _ in 0..self.random.pick(&[5, 8, 9, 10, 10, 11]) {
            inner = self.heavy_level(inner);
        }
        parts.push(inner);
        parts.push(self.show_variables());
        self.sequence(&parts)
    }

    fn long_text(&mut self) -> u16 {
        let letter = self.random.between(b'A' as usize, b'H' as usize) as u8;
        self.text(&[letter; 63])
    }

    fn fill_variable(&mut self, number: usize) -> u16 {
        let text = self.long_text();
        self.assign(&format!("v{number}"), text)
    }

    /// A list of long fields, this string somewhere among them.
    fn long_list(&mut self, string: u16) -> u16 {
        let mut strings = Vec::new();
        for _ in 0..15 {
            strings.push(match self.random.below(3) {
                0 => self.long_text(),
                1 => {
                    let number = self.random.below(16);
                    self.variable(&format!("v{number}"))
                }
                _ => {
                    let number = self.random.below(17);
                    self.argument(number)
                }
            });
        }
        let place = self.random.pick(&[0, 7, 15, 15]);
        strings.insert(place, string);
        self.fields(&strings)
    }

    /// One hold around the instruction, with much kept meanwhile.
    fn heavy_level(&mut self, inner: u16) -> u16 {
        let number = self.random.below(16);
        let change = self.fill_variable(number);
        let inner = self.sequence(&[change, inner]);
        match self.random.below(7) {
            0 | 1 => {
                let string = self.embedded(inner);
                let list = self.long_list(string);
                self.utility("true", list)
            }
            2 => {
                let full = self.full_stream();
                self.sheet.put(23, &[full, inner])
            }
            3 => {
                let full = self.full_stream();
                let both = self.sequence(&[full, inner]);
                let quiet = self.bare("true");
                self.sheet.put(23, &[both, quiet])
            }
            4 if self.functions.len() < 32 => {
                let last = self.long_text();
                let list = self.long_list(last);
                let name = self.fresh_function(inner);
                let name = self.text(name.as_bytes());
                self.sheet.put(25, &[name, list])
            }
            5 => self.heavy_for(inner),
            _ => self.sheet.put(19, &[inner]),
        }
    }

    /// A for over sixteen fields that runs the instruction for one of them.
    fn heavy_for(&mut self, inner: u16) -> u16 {
        let go = self.text(b"go");
        let list = self.long_list(go);
        let variable = self.variable("v0");
        let test = self.is_equal(variable, go);
        let quiet = self.bare("true");
        let body = self.sheet.put(21, &[test, inner, quiet]);
        self.for_each("v0", list, body)
    }

    /// An echo of exactly or nearly a full stream.
    fn full_stream(&mut self) -> u16 {
        let text = self.long_text();
        let lines = self.random.pick(&[15, 15, 16]);
        self.echo(&vec![text; lines])
    }

    fn show_variables(&mut self) -> u16 {
        let variables: Vec<u16> = (0..15).map(|number| self.variable(&format!("v{number}"))).collect();
        let echo = self.echo(&variables);
        let cat = self.bare("cat");
        match self.random.below(3) {
            0 => echo,
            1 => cat,
            _ => self.sheet.put(22, &[cat]),
        }
    }
}
