//! Sheets at the limits on functions (32), variables (16), records (512) and bytes (8,192).

use super::maker::Maker;

impl Maker {
    pub fn counts(&mut self) -> u16 {
        match self.random.below(4) {
            0 => self.many_functions(),
            1 => self.many_variables(),
            2 => self.many_records(),
            _ => self.many_bytes(),
        }
    }

    fn many_functions(&mut self) -> u16 {
        let body = self.any_end();
        let count = self.random.pick(&[31, 32, 32, 33, 33, 34]);
        for number in 0..count {
            if number == 32 {
                self.spoilt_function(body);
            }
            self.function(&format!("f{number}"), body);
        }
        let (first, last) = (self.call("f0", &[]), self.call("f31", &[]));
        self.stack_limit = 3;
        self.sequence(&[first, last])
    }

    /// Sometimes a wrong record just where a count is passed.
    fn spoilt_function(&mut self, body: u16) {
        let name = if self.random.chance(500) { self.text(b"f0") } else { self.text(b"f31") };
        match self.random.below(6) {
            0 => self.sheet.put(32, &[name, body]),
            1 => self.sheet.put(32, &[body, body]),
            2 => self.sheet.put(32, &[name, name]),
            _ => name,
        };
    }

    fn many_variables(&mut self) -> u16 {
        let text = self.text(b"v");
        let list = self.fields(&[text]);
        let yes = self.bare("true");
        let mut parts = vec![yes];
        for number in 0..self.random.pick(&[15, 16, 16, 17, 17, 18]) {
            let name = format!("v{number}");
            let wrong = number == 16 && self.random.chance(300);
            match self.random.below(4) {
                0 => {
                    let variable = self.variable(&name);
                    parts.push(self.echo(&[variable]));
                }
                1 => parts.push(self.assign(&name, if wrong { list } else { text })),
                2 => parts.push(self.export(&name)),
                _ => parts.push(self.for_each(&name, list, if wrong { text } else { yes })),
            }
        }
        // Variables count wherever they are named, reached or not.
        if self.random.chance(300) {
            parts.truncate(2);
        }
        if self.random.chance(500) {
            for number in self.random.between(8, 15)..16 {
                let name = format!("v{number}");
                parts.push(self.assign(&name, text));
                parts.push(self.export(&name));
            }
        }
        let env = self.bare("env");
        parts.push(env);
        self.sequence(&parts)
    }

    fn many_records(&mut self) -> u16 {
        let main = self.random_program();
        let total = self.random.pick(&[510, 511, 511, 511, 512, 512, 513]);
        while self.sheet.records.len() < total {
            match self.random.below(3) {
                0 => self.sheet.text(b""),
                1 => self.sheet.put(6, &[]),
                _ => self.sheet.put(28, &[0]),
            };
        }
        if self.random.chance(200) {
            let length = self.random.between(1, 6);
            self.tail = self.random.bytes(length);
        }
        if self.random.chance(100) {
            let last = self.sheet.records.len() - 1;
            self.sheet.records[last].kind = 33;
        }
        main
    }

    fn many_bytes(&mut self) -> u16 {
        let main = self.random_program();
        // Main takes six more.
        let total = self.random.pick(&[8_191, 8_192, 8_192, 8_192, 8_193, 8_193, 8_194, 9_000]) - 6;
        while self.sheet.size() < total {
            let left = total - self.sheet.size();
            let length = match left {
                0..=67 => left.max(4) - 4,
                68..=71 => 20,
                _ => self.random.between(60, 63),
            };
            let padding = self.word(length);
            self.sheet.text(&padding);
        }
        main
    }
}
