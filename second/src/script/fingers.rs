//! Fingers on the panel: keys are pressed and let go, and time passes.

use super::Maker;

// The lines.
impl Maker {
    /// A column, which is SF in some letters if it is 12, or a number.
    fn column(&mut self, column: u32) -> String {
        if column == 12 && !self.chance.one_in(4) {
            self.chance.pick(&["SF", "SF", "sf", "Sf", "sF"]).to_string()
        } else {
            self.decimal(column as usize)
        }
    }

    /// A finger presses a key or lets it go.
    fn finger(&mut self, command: &str, (row, column): (usize, u32)) {
        let words = vec![command.to_string(), self.decimal(row), self.column(column)];
        self.say(words);
    }

    /// A finger presses a key, now and then one that is down.
    pub(super) fn press(&mut self) {
        let (row, column) = self.some_key();
        self.press_at(row, column);
    }

    /// A finger presses this key.
    pub(super) fn press_at(&mut self, row: usize, column: u32) {
        self.closed[row] |= 1 << column;
        self.finger("press", (row, column));
    }

    /// A finger lets a key go, now and then one that is up.
    pub(super) fn release(&mut self) {
        let down = self.closed_keys();
        let (row, column) = if down.is_empty() || self.chance.one_in(12) {
            self.some_key()
        } else {
            self.chance.pick(&down)
        };
        self.release_at(row, column);
    }

    /// A finger lets this key go.
    pub(super) fn release_at(&mut self, row: usize, column: u32) {
        self.closed[row] &= !(1 << column);
        self.finger("release", (row, column));
    }

    /// That many looks at the contacts as they are.
    pub(super) fn wait(&mut self, looks: usize) {
        let words = vec!["wait".to_string(), self.decimal(looks)];
        self.say(words);
    }

    /// Time passes, most often just a little of it.
    pub(super) fn wait_some(&mut self) {
        let looks = match self.chance.below(30) {
            0 => self.chance.pick(&[20, 100, 255, 256, 256, 257, 300]),
            1..=3 => self.chance.between(4, 12),
            _ => self.chance.below(4),
        };
        self.wait(looks);
    }
}

// The regime.
impl Maker {
    /// Sets some size and a small bounce, and leaves a few fingers on the panel.
    pub(super) fn begin_fingers(&mut self) {
        self.begin_typing();
        self.look();
    }

    /// A finger moves or time passes; now and then the module is set anew under the fingers.
    pub(super) fn move_fingers(&mut self) {
        match self.chance.below(26) {
            0..=5 => self.press(),
            6..=11 => self.release(),
            12..=15 => self.wait_some(),
            16..=18 => self.look_and_wait(),
            19..=21 => self.decline_and_wait(),
            22 => self.write_some(0x02, 1),
            23 => self.write_some(0x02, 2),
            24 => self.write_some(0x03, 1),
            _ => self.reset_and_wait(),
        }
        match self.chance.below(4) {
            0 => self.fetch(),
            1 => self.probe(),
            2 => self.read(0x10, 1),
            _ => {}
        }
    }

    /// A contact changes in a look, and stays so.
    fn look_and_wait(&mut self) {
        self.touch();
        self.look();
        self.wait_some();
    }

    /// A look or a block that is declined, and looks at the contacts behind it.
    fn decline_and_wait(&mut self) {
        if self.chance.one_in(2) {
            self.decline_look();
        } else {
            self.decline_block();
        }
        self.wait_some();
    }

    /// A reset under the fingers, one of them anywhere, now and then with the whole panel in use again.
    fn reset_and_wait(&mut self) {
        let (row, column) = (self.chance.below(8), self.chance.below(13) as u32);
        self.press_at(row, column);
        self.reset();
        if self.chance.one_in(2) {
            self.write(0x02, &[1, 0x8C]);
        }
        self.wait_some();
        self.read(0x10, 15);
    }
}
