//! A module whose calls are counted by what they do to its sleep.

use second::calls::{Calls, Driven, ASLEEP};
use second::console::Console;
use second::module::Module;
use second::script::Line;
use std::cell::RefCell;
use std::collections::{HashMap, HashSet};
use std::rc::Rc;

/// How many quiet looks in a row make the module sleep.
const QUIET: usize = 255;

/// What breaks no row of quiet looks.
#[derive(Clone, Copy, Debug, Eq, Hash, PartialEq)]
pub enum Calm {
    /// An access that is given this number.
    Declined(u8),
    /// A look that is declined.
    Look,
    /// A block of no looks.
    Block,
    /// A pin sample that is done, or else declined.
    Pins(bool),
    Question,
}

/// What a call can be like.
#[derive(Clone, Copy, Debug, Eq, Hash, PartialEq)]
pub enum Kind {
    /// A look falls asleep.
    Falls,
    /// A look of a block falls asleep, and the block goes on.
    FallsInBlock,
    /// A look falls asleep with a code waiting.
    FallsWaiting,
    /// A look falls asleep with a key held.
    FallsHeld,
    /// A look falls asleep with an SF contact closed that hides a row.
    FallsHiding,
    /// A look falls asleep with a contact closed out of the size.
    FallsOutside,
    /// A look falls asleep, and this came in the row before it.
    FallsBehind(Calm),
    /// This comes asleep.
    Asleep(Calm),
    /// A read, or else a write, is given 27.
    Refused(bool),
    /// An access is given 27 that would be given this number awake.
    RefusedFor(u8),
    /// A write is given 27 that would restart.
    RefusedSize,
    /// A read is given 27 that would take a code.
    RefusedCode,
    /// A look with a change comes when one look is missing, or asleep.
    Change,
    /// All changes of such a look are dropped.
    Dropped,
    /// A contact settles in a look that comes then, and nothing changes.
    Settling,
    /// One of these looks is in a block.
    BusyInBlock,
    /// A reset wakes it.
    Reset,
    /// A reset breaks a row of at least 100 quiet looks.
    ResetBreaks,
    /// It sleeps on through a look.
    SleepsOn,
    /// An access that is done comes when one look is missing.
    LastDone,
    /// Contacts stand still for a whole row, nothing changes, and it is awake: a hidden key settles.
    HiddenAwake,
}

/// How many calls are of each kind.
pub type Counts = HashMap<Kind, usize>;

/// A module and what is known of its row of quiet looks.
struct Watched {
    module: Module,
    /// The keys, and whether they are held.
    held: Vec<bool>,
    /// The newest look, and how many like it came in a row, with no change and nothing between.
    newest: Vec<u16>,
    still: usize,
    /// What came in the row of quiet looks and did not break it.
    between: RefCell<HashSet<Calm>>,
    /// Whether a block is being made.
    block: bool,
    counts: Rc<RefCell<Counts>>,
}

impl Watched {
    /// Counts a call as of these kinds.
    fn count(&self, kinds: &[(Kind, bool)]) {
        let mut counts = self.counts.borrow_mut();
        for (kind, _) in kinds.iter().filter(|(_, is)| *is) {
            *counts.entry(*kind).or_default() += 1;
        }
    }

    /// Whether one look is missing, or none.
    fn is_at_the_edge(&self) -> bool {
        self.module.quiet() >= QUIET - 1
    }

    /// Counts something that breaks no row.
    fn count_calm(&self, calm: Calm) {
        self.between.borrow_mut().insert(calm);
        self.count(&[(Kind::Asleep(calm), self.module.quiet() >= QUIET)]);
    }

    /// The same module, awake.
    fn awake(&self) -> Module {
        let mut module = self.module.clone();
        if module.quiet() >= QUIET {
            module.read(0x06, &mut [0]);
        }
        module
    }

    /// How many codes wait.
    fn waiting(&self) -> usize {
        let mut codes = [0; 15];
        self.awake().read(0x10, &mut codes);
        codes.iter().filter(|code| **code != 0x7F).count()
    }

    /// The keys, and whether they are held.
    fn keys(&self) -> Vec<bool> {
        let keys = (0..8).flat_map(|row| (0..13).map(move |column| (row, column)));
        keys.map(|(row, column)| self.module.held(row, column).1).collect()
    }

    /// The bits of a row's sample that are in the size.
    fn in_size(&self, row: u8) -> u16 {
        let size = self.module.register(0x03);
        if row < size / 16 {
            0x1000 + ((1 << (size % 16)) - 1)
        } else {
            0
        }
    }

    /// Counts a look that falls asleep.
    fn count_fall(&self, list: &[u16]) {
        let rows = || (0..8).zip(list);
        self.count(&[
            (Kind::Falls, true),
            (Kind::FallsInBlock, self.block),
            (Kind::FallsWaiting, self.waiting() > 0),
            (Kind::FallsHeld, self.keys().contains(&true)),
            (Kind::FallsHiding, rows().any(|(row, is)| is & self.in_size(row) & 0x1000 != 0)),
            (Kind::FallsOutside, rows().any(|(row, is)| is & !self.in_size(row) != 0)),
        ]);
        let between = self.between.borrow();
        between.iter().for_each(|calm| self.count(&[(Kind::FallsBehind(*calm), true)]));
    }

    /// Counts a look that is not quiet, and comes asleep or as the last of a row.
    fn count_busy(&self, changes: bool, waiting: usize) {
        self.count(&[
            (Kind::Change, changes),
            (Kind::Dropped, changes && waiting == 15),
            (Kind::Settling, !changes),
            (Kind::BusyInBlock, self.block),
        ]);
    }

    /// Counts the looks at contacts that stand still.
    fn count_still(&mut self, list: &[u16], changes: bool) {
        let same = !changes && self.newest == list;
        self.still = if same { self.still + 1 } else { 0 };
        self.newest = list.to_vec();
        let short = self.module.register(0x02) < 10;
        self.count(&[(
            Kind::HiddenAwake,
            short && self.still == QUIET && self.module.quiet() < QUIET,
        )]);
    }

    /// Counts a look that is done.
    fn count_look(&mut self, list: &[u16], quiet: usize, waiting: usize) {
        // A look that is quiet has changed nothing.
        let held = if self.module.quiet() == 0 { self.keys() } else { self.held.clone() };
        let changes = self.held != held;
        self.held = held;
        match self.module.quiet() {
            0 if quiet >= QUIET - 1 => self.count_busy(changes, waiting),
            0 => {}
            QUIET => self.count_fall(list),
            now => self.count(&[(Kind::SleepsOn, now > QUIET)]),
        }
        if self.module.quiet() == 0 {
            self.break_row();
        }
        self.count_still(list, changes);
    }

    /// No key is held, and a row begins.
    fn restart(&mut self) {
        (self.held, self.still) = (vec![false; 104], 0);
        self.break_row();
    }

    /// The row of quiet looks is broken.
    fn break_row(&self) {
        self.between.borrow_mut().clear();
    }

    /// Counts an access by what it is given, and would be given awake.
    fn count_access(&mut self, read: bool, number: u8, awake: u8, last: bool) {
        let refused = number == ASLEEP;
        self.count(&[
            (Kind::Refused(read), refused),
            (Kind::RefusedFor(awake), refused),
            (Kind::LastDone, last && number == 0),
        ]);
        if number == 0 || refused {
            self.still = 0;
            self.break_row();
        } else {
            self.count_calm(Calm::Declined(number));
        }
    }
}

impl Calls for Watched {
    fn reset(&mut self) -> u8 {
        let quiet = self.module.quiet();
        self.count(&[
            (Kind::Reset, quiet >= QUIET),
            (Kind::ResetBreaks, (100..QUIET).contains(&quiet)),
        ]);
        self.restart();
        self.module.reset()
    }

    fn look(&mut self, list: &[u16]) -> u8 {
        let quiet = self.module.quiet();
        let waiting = if self.is_at_the_edge() { self.waiting() } else { 0 };
        let number = self.module.look(list);
        if number == 0 {
            self.count_look(list, quiet, waiting);
        } else {
            self.count_calm(Calm::Look);
        }
        number
    }

    fn looks(&mut self, list: &[u16]) -> (u8, usize) {
        if list.is_empty() {
            self.count_calm(Calm::Block);
        }
        if list.len() % 8 != 0 {
            return self.module.looks(list);
        }
        self.block = true;
        let mut looks = list.chunks(8).map(|samples| self.look(samples)).enumerate();
        let stop = looks.find(|(_, number)| *number != 0);
        self.block = false;
        stop.map_or((0, list.len() / 8), |(done, number)| (number, done))
    }

    fn write(&mut self, first: u8, bytes: &[u8]) -> u8 {
        let (last, asleep) = (self.module.quiet() == QUIET - 1, self.is_at_the_edge());
        let awake = if asleep { self.awake().write(first, bytes) } else { 0 };
        let number = self.module.write(first, bytes);
        let sized = first == 0x03 || first == 0x02 && bytes.len() == 2;
        self.count(&[(Kind::RefusedSize, number == ASLEEP && awake == 0 && sized)]);
        self.count_access(false, number, awake, last);
        if number == 0 && sized {
            self.restart();
        }
        number
    }

    fn read(&mut self, first: u8, buffer: &mut [u8]) -> u8 {
        let (last, asleep) = (self.module.quiet() == QUIET - 1, self.is_at_the_edge());
        let awake = if asleep { self.awake().read(first, &mut buffer.to_vec()) } else { 0 };
        let waits = asleep && self.waiting() > 0;
        let number = self.module.read(first, buffer);
        self.count(&[(
            Kind::RefusedCode,
            number == ASLEEP && awake == 0 && waits && first == 0x10,
        )]);
        self.count_access(true, number, awake, last);
        number
    }

    fn pins(&mut self, sample: u32) -> u8 {
        let number = self.module.pins(sample);
        self.count_calm(Calm::Pins(number == 0));
        number
    }

    fn held(&self, row: u8, column: u8) -> (u8, bool) {
        self.count_calm(Calm::Question);
        self.module.held(row, column)
    }

    fn interrupt(&self) -> (u8, bool) {
        self.count_calm(Calm::Question);
        self.module.interrupt()
    }

    fn drive(&self) -> (u8, Driven) {
        self.count_calm(Calm::Question);
        self.module.drive()
    }

    fn register(&self, address: u8) -> u8 {
        self.module.register(address)
    }
}

/// How many calls of a script are of each kind.
pub fn counts(script: &[Line]) -> Counts {
    let counts = Rc::new(RefCell::new(Counts::new()));
    let watched = Watched {
        module: Module::new(),
        held: vec![false; 104],
        newest: Vec::new(),
        still: 0,
        between: RefCell::default(),
        block: false,
        counts: counts.clone(),
    };
    let mut console = Console::over(Box::new(watched));
    script.iter().for_each(|line| drop(console.answer(line)));
    drop(console);
    counts.take()
}
