//! Programs in which (nearly) every function calls every function, so that (nearly) every pair is met.

use super::maker::Maker;

/// About so many calls are made at most, as a run of all pairs at every level would never end.
const MOST_CALLS: usize = 500;

impl Maker {
    pub fn mesh(&mut self) -> u16 {
        let few = self.random.pick(&[1, 2, 2, 3, 4, 6, 8, 9, 10, 11, 16]);
        let many = self.random.pick(&[31, 32, 32, 32]);
        let count = if self.random.chance(100) { many } else { few };
        let levels = self.levels_of_mesh(count);
        self.stack_limit = self.random.pick(&[levels as u64 + 1, levels as u64 + 1, levels as u64, 10]);
        self.budget = 90_000;
        let names = self.function_names(count);
        let list = self.handed_on(levels);
        let calls: Vec<u16> = names
            .iter()
            .map(|name| {
                let name = self.text(name.as_bytes());
                self.sheet.put(25, &[name, list])
            })
            .collect();
        let fans: Vec<u16> = (0..self.random.between(1, 3)).map(|_| self.fan(&calls)).collect();
        if count < 32 {
            self.uncalled();
        }
        self.functions_of_mesh(&names, &fans);
        let words: Vec<u16> = (0..levels).map(|_| self.text(b"a")).collect();
        let calls: Vec<u16> = names.iter().map(|name| self.call(name, &words)).collect();
        let all = self.fan(&calls);
        let rounds = self.rounds_of_mesh(count, levels);
        self.repeated(all, rounds)
    }

    /// How deep the functions call each other below those that main calls.
    fn levels_of_mesh(&mut self, count: usize) -> usize {
        let mut deepest = 1;
        while deepest < 9 && count.pow(deepest + 2) <= MOST_CALLS {
            deepest += 1;
        }
        self.random.between(1, deepest as usize)
    }

    /// Several where they are short; seldom several of the longest, as its file is the longest then.
    fn rounds_of_mesh(&mut self, count: usize, levels: usize) -> usize {
        let rounds = self.random.pick(&[1, 1, 2, 9, 10, 12]);
        if count.pow(levels as u32 + 1) * rounds <= MOST_CALLS {
            return rounds;
        }
        if count < 32 || self.random.chance(940) {
            return 1;
        }
        self.budget = 1_000_000;
        rounds
    }

    /// Each calls on while it has arguments. No two have as many steps of their own.
    fn functions_of_mesh(&mut self, names: &[String], fans: &[u16]) {
        let first = self.argument(1);
        let test = self.is_set(first);
        let mut leaf = self.sheet.put(30, &[0]);
        for name in names {
            leaf = self.sheet.put(20, &[leaf]);
            let fan = self.random.pick(fans);
            let body = self.sheet.put(21, &[test, fan, leaf]);
            self.function(name, body);
        }
    }

    /// The calls one after the other, in order or not, most often all of them, some twice.
    fn fan(&mut self, calls: &[u16]) -> u16 {
        let mut chosen = calls.to_vec();
        if self.random.chance(500) {
            for place in 1..chosen.len() {
                let other = self.random.below(place + 1);
                chosen.swap(place, other);
            }
        }
        for _ in 0..self.random.pick(&[0, 0, 0, 1, 2, 5]) {
            let place = self.random.below(chosen.len());
            if self.random.chance(500) {
                chosen.push(chosen[place]);
            } else if chosen.len() > 1 {
                chosen.remove(place);
            }
        }
        self.sequence(&chosen)
    }
}
