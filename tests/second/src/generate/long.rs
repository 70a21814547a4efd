//! Runs that need a number of steps made to measure, near a power of two or the largest budget,
//! with the last steps in any sort of instruction; and long loops and many calls.

use super::maker::Maker;

const LARGEST: usize = 1_000_000;

impl Maker {
    pub fn long(&mut self) -> u16 {
        self.stack_limit = 10;
        match self.random.below(9) {
            0 | 1 => self.many_turns(),
            2 => self.many_calls(),
            3 => self.branching_calls(),
            _ => {
                let power = 1 << self.random.between(17, 19);
                let total = self.random.pick(&[LARGEST, LARGEST, LARGEST, power]);
                self.counted(total)
            }
        }
    }

    /// Near a lower power of two, for a short run.
    pub fn measured(&mut self) -> u16 {
        let power = 1 << self.random.between(5, 16);
        self.counted(power)
    }

    /// A loop that ends at a limit near the largest, or just before it for want of budget.
    fn many_turns(&mut self) -> u16 {
        let turns = self.random.pick(&[65_535, 65_535, 65_534, 32_768, 32_767]);
        self.loop_limit = turns;
        // Two steps for each test and each body, and the loop's own.
        let needed = 4 * turns + 3;
        self.budget = self.random.pick(&[needed, needed, needed + 1, needed - 1, LARGEST as u64]);
        self.endless()
    }

    /// Needs a number of steps near this one, and is given about that budget.
    fn counted(&mut self, near: usize) -> u16 {
        let less = self.random.below(if near == LARGEST { 15 } else { 3 });
        let total = near + self.random.pick(&[0, 0, 1, 2, 2]) - self.random.pick(&[0, 1, less, less]);
        let shape = self.random.below(7);
        let end = self.last_steps();
        let trial = self.with_steps(shape, 1, end);
        let needed = self.steps_of(trial);
        let budget = total + self.random.pick(&[0, 0, 1]) - self.random.pick(&[0, 1, 1]);
        self.budget = if self.random.chance(200) { LARGEST } else { budget.min(LARGEST) } as u64;
        // Too few for the end alone leave nothing to add.
        self.with_steps(shape, (total + 1).saturating_sub(needed), end)
    }

    /// Few steps of many sorts, for the end of the run.
    fn last_steps(&mut self) -> u16 {
        match self.random.below(5) {
            0 => self.aimed_result(),
            1 => self.aimed_flag(),
            2 => self.aimed_calls(),
            3 => {
                let word = self.text(b"w");
                let list = self.fields(&[word, word]);
                let variable = self.variable("x");
                let body = self.echo(&[variable]);
                self.for_each("x", list, body)
            }
            _ => self.probe(),
        }
    }

    /// So many steps, and the end before, after or around them.
    fn with_steps(&mut self, shape: usize, steps: usize, end: u16) -> u16 {
        let lasting = self.lasting(steps);
        match shape {
            0 => self.sequence(&[end, lasting]),
            1 => {
                let name = self.fresh_function(lasting);
                let call = self.call(&name, &[]);
                self.sequence(&[call, end])
            }
            2 => {
                let body = self.sequence(&[lasting, end]);
                let name = self.fresh_function(body);
                self.call(&name, &[])
            }
            3 => {
                let word = self.text(b"w");
                let list = self.fields(&[word]);
                let loops = self.for_each("y", list, lasting);
                self.sequence(&[loops, end])
            }
            4 => {
                let string = self.embedded(lasting);
                let assign = self.assign("y", string);
                self.sheet.put(21, &[assign, end, end])
            }
            _ => self.sequence(&[lasting, end]),
        }
    }

    /// An instruction of exactly so many steps, out of few records that are used twice.
    pub fn lasting(&mut self, steps: usize) -> u16 {
        match steps {
            0 | 1 => self.sheet.put(30, &[0]),
            _ if steps.is_multiple_of(2) => {
                let inner = self.lasting(steps - 1);
                self.sheet.put(20, &[inner])
            }
            _ => {
                let half = self.lasting(steps / 2);
                self.sheet.put(18, &[half, half])
            }
        }
    }

    /// The steps that a short main makes.
    fn steps_of(&mut self, main: u16) -> usize {
        let mut trial = self.finish(main);
        self.sheet.records.pop();
        trial.budget = 2_000;
        trial.steps() as usize
    }

    /// A function entered more often than sixteen bits can tell, or nearly so.
    fn many_calls(&mut self) -> u16 {
        self.budget = LARGEST as u64;
        let body = self.sheet.put(30, &[0]);
        self.function("f", body);
        let call = self.call("f", &[]);
        (0..self.random.between(15, 17)).fold(call, |inner, _| self.sheet.put(18, &[inner, inner]))
    }

    /// A function that calls itself twice for each argument it has.
    fn branching_calls(&mut self) -> u16 {
        self.budget = self.random.pick(&[20_000, 60_000, LARGEST as u64]);
        let handed: Vec<u16> = (2..10).map(|number| self.argument(number)).collect();
        let list = handed.iter().rev().fold(self.empty(), |rest, &string| self.split(string, rest));
        let name = self.text(b"f");
        let call = self.sheet.put(25, &[name, list]);
        let first = self.argument(1);
        let test = self.is_set(first);
        let both = self.sequence(&[call, call]);
        let leaf = self.bare("true");
        let body = self.sheet.put(21, &[test, both, leaf]);
        self.function("f", body);
        let word = self.text(b"a");
        let words = vec![word; self.random.between(5, 9)];
        self.call("f", &words)
    }
}
