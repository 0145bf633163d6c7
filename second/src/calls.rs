//! The six calls of document 01, and of document 02 the block of looks (E2), the pin sample and the
//! question what the pins drive (E6), which a console makes of its module, and a call as a value.

/// How many pins can be plain inputs and outputs.
pub const PINS: usize = 19;

/// The number of an access that meets the module asleep (document 02, E7).
pub const ASLEEP: u8 = 27;

/// The level of each pin that is driven.
pub type Driven = [Option<bool>; PINS];

/// What any key module answers: a number for each call, and a question's answer with it.
pub trait Calls {
    /// Reset.
    fn reset(&mut self) -> u8;

    /// One look, with one sample per row.
    fn look(&mut self, list: &[u16]) -> u8;

    /// A block of looks, eight samples each: the number, and how many looks were done.
    fn looks(&mut self, list: &[u16]) -> (u8, usize);

    /// The write access.
    fn write(&mut self, first: u8, bytes: &[u8]) -> u8;

    /// The read access, which fills the buffer lent.
    fn read(&mut self, first: u8, buffer: &mut [u8]) -> u8;

    /// One sample of the pins, with a bit for each.
    fn pins(&mut self, sample: u32) -> u8;

    /// The question whether a key is held.
    fn held(&self, row: u8, column: u8) -> (u8, bool);

    /// The question whether the interrupt line is asserted.
    fn interrupt(&self) -> (u8, bool);

    /// The question which pins are driven.
    fn drive(&self) -> (u8, Driven);

    /// The byte of a register that reading leaves as it is, seen without an access.
    fn register(&self, address: u8) -> u8;
}

/// A call with what it is given. Questions, blocks and pin samples are not among
/// them.
#[derive(Clone, Debug, PartialEq)]
pub enum Call {
    Reset,
    /// The samples.
    Look(Vec<u16>),
    /// The first address, and the bytes from there on.
    Write(u8, Vec<u8>),
    /// The first address, and how many bytes are lent.
    Read(u8, usize),
}

impl Call {
    /// Makes the call of a module: its number, and the buffer of a read.
    pub fn made(&self, module: &mut dyn Calls) -> (u8, Vec<u8>) {
        match self {
            Call::Reset => (module.reset(), Vec::new()),
            Call::Look(samples) => (module.look(samples), Vec::new()),
            Call::Write(first, bytes) => (module.write(*first, bytes), Vec::new()),
            Call::Read(first, count) => {
                let mut buffer = vec![0; *count];
                (module.read(*first, &mut buffer), buffer)
            }
        }
    }
}
