//! Programs of few functions that call themselves and each other from every place a call can stand,
//! leave calls in every manner, and make calls that never open.

use super::maker::Maker;

impl Maker {
    pub fn tangle(&mut self) -> u16 {
        let count = self.random.pick(&[1, 1, 2, 2, 2, 3, 3, 4, 6]);
        let levels = self.random.pick(&[1, 2, 2, 3, 3, 4, 6, 10]);
        self.stack_limit = self.random.pick(&[10, 10, 10, levels as u64, levels as u64 + 1, 2]).min(10);
        self.loop_limit = self.random.pick(&[0, 1, 2, 3]);
        self.budget = 6_000;
        let names = self.function_names(count);
        let list = self.handed_on(levels);
        // Deep ones call on once, or they would not end.
        let most = if levels > 3 { 1 } else { 3 };
        for name in &names {
            let body = self.tangled_body(&names, list, most);
            self.uncalled();
            self.function(name, body);
        }
        let words: Vec<u16> = (0..levels).map(|_| self.text(b"a")).collect();
        let list = self.fields(&words);
        let parts: Vec<u16> =
            (0..self.random.between(1, 3)).map(|_| self.placed_call(&names, list)).collect();
        self.sequence(&parts)
    }

    /// Calls on while there are arguments.
    fn tangled_body(&mut self, names: &[String], list: u16, most: usize) -> u16 {
        let mut parts: Vec<u16> =
            (0..self.random.between(1, most)).map(|_| self.placed_call(names, list)).collect();
        if self.random.chance(250) {
            let place = self.random.below(parts.len() + 1);
            let own = self.echo_text(b"o");
            parts.insert(place, own);
        }
        let further = self.sequence(&parts);
        let first = self.argument(1);
        let test = self.is_set(first);
        let leaf = match self.random.below(8) {
            0 => self.any_end(),
            1 => self.never_open(names),
            2 => self.sheet.put(29, &[0]),
            _ => self.bare("true"),
        };
        self.sheet.put(21, &[test, further, leaf])
    }

    fn any_call(&mut self, names: &[String], list: u16) -> u16 {
        let chosen = self.random.below(names.len());
        let name = self.text(names[chosen].as_bytes());
        self.sheet.put(25, &[name, list])
    }

    /// A call in any place.
    fn placed_call(&mut self, names: &[String], list: u16) -> u16 {
        let call = self.any_call(names, list);
        match self.random.below(16) {
            0..=4 => call,
            5 => self.call_in_list(call, names),
            6 => {
                let string = self.embedded(call);
                self.assign("x", string)
            }
            7 => {
                let other = self.any_call(names, list);
                self.sheet.put(23, &[call, other])
            }
            8 => {
                let (yes, other) = (self.bare("true"), self.any_call(names, list));
                self.sheet.put(21, &[call, other, yes])
            }
            9 => self.call_in_loop(call),
            10 => {
                let kind = self.random.pick(&[19, 20, 22]);
                self.sheet.put(kind, &[call])
            }
            11 => {
                let end = self.any_end();
                self.sequence(&[call, end])
            }
            12 => self.held(call),
            13 => self.unheld(call),
            14 => {
                let other = self.never_open(names);
                self.sequence(&[call, other])
            }
            _ => self.sequence(&[call, call]),
        }
    }

    /// In the list of a call, which is the caller's own matter; that call may not open.
    fn call_in_list(&mut self, call: u16, names: &[String]) -> u16 {
        let echo = self.echo_text(b"w");
        let inner = if self.random.chance(300) { self.sequence(&[echo, call]) } else { call };
        let string = self.embedded(inner);
        let rest = self.empty();
        let kind = self.random.pick(&[7, 8]);
        let list = self.sheet.put(kind, &[string, rest]);
        if self.random.chance(200) {
            let unknown = self.text(b"unknown");
            return self.sheet.put(25, &[unknown, list]);
        }
        self.any_call(names, list)
    }

    /// In the body of a for or a while, or in the test of a while.
    fn call_in_loop(&mut self, call: u16) -> u16 {
        let word = self.text(b"w");
        match self.random.below(3) {
            0 => {
                let words = vec![word; self.random.between(1, 3)];
                let list = self.fields(&words);
                self.for_each("y", list, call)
            }
            1 => {
                // Once, as the body sets what the test asks for.
                let variable = self.variable("z");
                let set = self.is_set(variable);
                let test = self.sheet.put(20, &[set]);
                let assign = self.assign("z", word);
                let body = self.sequence(&[assign, call]);
                self.sheet.put(27, &[test, body])
            }
            _ => {
                let no = self.bare("false");
                let test = self.sequence(&[call, no]);
                let body = self.bare("true");
                self.sheet.put(27, &[test, body])
            }
        }
    }

    /// A call of a name that no function has, or one with an error in its list.
    fn never_open(&mut self, names: &[String]) -> u16 {
        if self.random.chance(600) {
            let call = self.call("unknown", &[]);
            let yes = self.bare("true");
            return self.sheet.put(21, &[call, yes, yes]);
        }
        let fails = self.failing();
        let string = self.embedded(fails);
        let list = self.fields(&[string]);
        self.any_call(names, list)
    }
}
