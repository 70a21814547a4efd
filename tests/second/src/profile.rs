//! The naive profile: at each step, the list of all open calls. Every count is derived from that
//! record after the run.

mod edges;

pub use edges::Edge;

#[derive(Clone, Copy, PartialEq, Eq)]
pub struct OpenCall {
    pub function: usize,
    pub call: usize,
}

pub struct Profile {
    functions: usize,
    /// The lists of open calls met, outermost call first. A list is kept once and named by position.
    lists: Vec<Vec<OpenCall>>,
    /// The list in force.
    now: usize,
    /// For each step, the list in force.
    steps: Vec<usize>,
}

#[derive(Clone, Copy, Debug, Default, PartialEq, Eq)]
pub struct Counts {
    pub entered: u32,
    pub own: u32,
    pub inclusive: u32,
}

/// All that is counted of a run.
pub struct Figures {
    pub steps: u32,
    /// Of each function, main first.
    pub counts: Vec<Counts>,
    /// By caller, then by callee.
    pub edges: Vec<Edge>,
}

impl Profile {
    /// Main's call is open from the start and is call 0 of function 0.
    pub fn new(functions: usize) -> Profile {
        let main = OpenCall { function: 0, call: 0 };
        Profile { functions, lists: vec![vec![main]], now: 0, steps: Vec::new() }
    }

    pub fn step(&mut self) {
        self.steps.push(self.now);
    }

    pub fn steps(&self) -> u64 {
        self.steps.len() as u64
    }

    /// Main is not counted.
    pub fn open_calls(&self) -> u64 {
        self.lists[self.now].len() as u64 - 1
    }

    /// Opens a call and gives back the list to return to. Each call makes one list, so the position
    /// of its list serves as the call's number.
    pub fn open(&mut self, function: usize) -> usize {
        let before = self.now;
        let mut list = self.lists[before].clone();
        list.push(OpenCall { function, call: self.lists.len() });
        self.now = self.lists.len();
        self.lists.push(list);
        before
    }

    pub fn close(&mut self, before: usize) {
        self.now = before;
    }

    pub fn figures(&self) -> Figures {
        Figures { steps: self.steps() as u32, counts: self.counts(), edges: self.edges() }
    }

    fn counts(&self) -> Vec<Counts> {
        let made = self.steps_by_list();
        let mut counts = vec![Counts::default(); self.functions + 1];
        for (list, &steps) in self.lists.iter().zip(&made) {
            let innermost = list[list.len() - 1];
            counts[innermost.function].entered += 1;
            counts[innermost.function].own += steps;
            for (function, count) in counts.iter_mut().enumerate() {
                if list.iter().any(|open| open.function == function) {
                    count.inclusive += steps;
                }
            }
        }
        let by_length = self.inclusive_by_length(&made);
        let by_step: Vec<u32> = counts.iter().map(|count| count.inclusive).collect();
        assert_eq!(by_step, by_length, "the two readings of inclusive differ");
        counts
    }

    fn steps_by_list(&self) -> Vec<u32> {
        let mut made = vec![0; self.lists.len()];
        for &list in &self.steps {
            made[list] += 1;
        }
        made
    }

    /// The steps made while each call was open.
    fn lengths(&self, made: &[u32]) -> Vec<u32> {
        let mut length = vec![0; self.lists.len()];
        for (list, &steps) in self.lists.iter().zip(made) {
            for open in list {
                length[open.call] += steps;
            }
        }
        length
    }

    /// The sum of the lengths of the outermost calls of each function.
    fn inclusive_by_length(&self, made: &[u32]) -> Vec<u32> {
        let length = self.lengths(made);
        let mut sums = vec![0; self.functions + 1];
        for list in &self.lists {
            let (began, others) = list.split_last().expect("main is always open");
            if others.iter().all(|open| open.function != began.function) {
                sums[began.function] += length[began.call];
            }
        }
        sums
    }
}
