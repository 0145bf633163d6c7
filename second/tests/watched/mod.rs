//! A module whose looks are counted by what they hide.

pub mod pins;
pub mod sleep;

use second::calls::{Calls, Driven};
use second::console::Console;
use second::module::Module;
use second::script::Line;
use std::cell::RefCell;
use std::collections::{HashMap, HashSet};
use std::rc::Rc;

/// What a look that is done can be like.
#[derive(Clone, Copy, Debug, Eq, Hash, PartialEq)]
pub enum Kind {
    Done,
    /// No SF contact is closed.
    Plain,
    /// An SF contact in the size is closed.
    Hiding,
    /// All eight SF contacts are in the size and closed.
    HidingAll,
    /// SF contacts are closed, and all of them are out of the size.
    Outside,
    /// A row is hidden that was hidden in the three looks before.
    HidingLong,
    /// A key is hidden whose newest sample is not as it is held.
    Settling,
    /// A key is hidden that would change if this look had a sample of it.
    Changing,
    /// A key is hidden whose last D samples are not as it is held.
    Due,
    /// A key changes that was hidden between the samples that change it.
    Across,
}

/// How many looks are of each kind.
pub type Counts = HashMap<Kind, usize>;

/// The samples of a key that are not as it is held.
#[derive(Clone, Copy, Default)]
struct Run {
    length: usize,
    /// Whether the key was hidden behind one of them.
    hidden: bool,
}

/// A module and what is known of its keys since the restart.
struct Watched {
    module: Module,
    /// By press code.
    runs: [Run; 128],
    /// For how many looks each row has been hidden.
    hidden: [usize; 8],
    counts: Rc<RefCell<Counts>>,
}

impl Watched {
    /// The rows in the size.
    fn rows(&self) -> usize {
        usize::from(self.module.register(0x03)) / 16
    }

    /// The matrix keys in the size, and whether they are held.
    fn keys(&self) -> Vec<(usize, usize, bool)> {
        let (rows, columns) = (self.rows(), usize::from(self.module.register(0x03)) % 16);
        let keys = (0..rows).flat_map(|row| (0..columns).map(move |column| (row, column)));
        let held = |(row, column)| (row, column, self.module.held(row as u8, column as u8).1);
        keys.map(held).collect()
    }

    /// Forgets what is known of the keys.
    fn restart(&mut self) {
        (self.runs, self.hidden) = ([Run::default(); 128], [0; 8]);
    }

    /// What the SF contacts of a look are like.
    fn direct(&mut self, closed: &[bool]) -> HashSet<Kind> {
        let rows = self.rows();
        let mut kinds = HashSet::from([Kind::Done]);
        let (inside, outside) = closed.split_at(rows);
        match (inside.contains(&true), outside.contains(&true)) {
            (true, _) => kinds.insert(Kind::Hiding),
            (false, true) => kinds.insert(Kind::Outside),
            (false, false) => kinds.insert(Kind::Plain),
        };
        if rows == 8 && !closed.contains(&false) {
            kinds.insert(Kind::HidingAll);
        }
        for (looks, closed) in self.hidden.iter_mut().zip(inside) {
            *looks = if *closed { *looks + 1 } else { 0 };
            if *looks > 3 {
                kinds.insert(Kind::HidingLong);
            }
        }
        kinds
    }

    /// Counts a look that is done. The keys are as they were before it.
    fn count(&mut self, list: &[u16], before: &[(usize, usize, bool)]) {
        let needed = usize::from(self.module.register(0x02)).max(1);
        let closed: Vec<bool> = list.iter().map(|sample| sample >> 12 & 1 == 1).collect();
        let mut kinds = self.direct(&closed);
        for ((row, column, was), (.., is)) in before.iter().zip(self.keys()) {
            let run = &mut self.runs[16 * row + column];
            let opposite = (list[*row] >> column & 1 == 1) != *was;
            if closed[*row] {
                run.hidden = run.length > 0;
                kinds.extend(Some(Kind::Settling).filter(|_| run.length > 0));
                kinds.extend(Some(Kind::Changing).filter(|_| opposite && run.length + 1 >= needed));
                kinds.extend(Some(Kind::Due).filter(|_| run.length >= needed));
            } else if opposite && is == *was {
                run.length += 1;
            } else {
                kinds.extend(Some(Kind::Across).filter(|_| opposite && run.hidden));
                *run = Run::default();
            }
        }
        let mut counts = self.counts.borrow_mut();
        kinds.into_iter().for_each(|kind| *counts.entry(kind).or_default() += 1);
    }
}

impl Calls for Watched {
    fn reset(&mut self) -> u8 {
        self.restart();
        self.module.reset()
    }

    fn look(&mut self, list: &[u16]) -> u8 {
        let before = self.keys();
        let number = self.module.look(list);
        if number == 0 {
            self.count(list, &before);
        }
        number
    }

    fn looks(&mut self, list: &[u16]) -> (u8, usize) {
        if list.len() % 8 != 0 {
            return self.module.looks(list);
        }
        for (done, samples) in list.chunks(8).enumerate() {
            let number = self.look(samples);
            if number != 0 {
                return (number, done);
            }
        }
        (0, list.len() / 8)
    }

    fn write(&mut self, first: u8, bytes: &[u8]) -> u8 {
        let number = self.module.write(first, bytes);
        if number == 0 && (first == 0x03 || first == 0x02 && bytes.len() == 2) {
            self.restart();
        }
        number
    }

    fn read(&mut self, first: u8, buffer: &mut [u8]) -> u8 {
        self.module.read(first, buffer)
    }

    fn pins(&mut self, sample: u32) -> u8 {
        self.module.pins(sample)
    }

    fn held(&self, row: u8, column: u8) -> (u8, bool) {
        self.module.held(row, column)
    }

    fn interrupt(&self) -> (u8, bool) {
        self.module.interrupt()
    }

    fn drive(&self) -> (u8, Driven) {
        self.module.drive()
    }

    fn register(&self, address: u8) -> u8 {
        self.module.register(address)
    }
}

/// How many looks of a script are of each kind.
pub fn counts(script: &[Line]) -> Counts {
    let counts = Rc::new(RefCell::new(Counts::new()));
    let (runs, shared) = ([Run::default(); 128], counts.clone());
    let watched = Watched { module: Module::new(), runs, hidden: [0; 8], counts: shared };
    let mut console = Console::over(Box::new(watched));
    script.iter().for_each(|line| drop(console.answer(line)));
    drop(console);
    counts.take()
}
