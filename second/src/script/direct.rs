//! Direct keys: SF contacts that close and hide their rows, while the keys there go down and up.

use super::Maker;

/// The SF contact in a row's sample.
pub(super) const SF: u16 = 0x1000;

// The contacts.
impl Maker {
    /// How many rows are in the size.
    pub(super) fn rows(&self) -> usize {
        usize::from(self.size >> 4)
    }

    /// Presses or releases a key of the row in the size, now and then two, or all of them at once.
    pub(super) fn strike(&mut self, row: usize) {
        let columns = usize::from(self.size & 0x0F);
        match self.chance.below(8) {
            0 => self.closed[row] ^= (1 << columns) - 1,
            1 => self.closed[row] ^= 1 | 1 << (columns - 1),
            _ => {
                let contact = 1 << self.chance.below(columns);
                self.closed[row] ^= contact;
                if self.chance.one_in(4) {
                    self.bouncing[row] |= contact;
                }
            }
        }
    }

    /// Closes the SF contact of the row, or those of other rows too, or only others.
    fn close_direct(&mut self, row: usize) {
        let rows = self.rows();
        match self.chance.below(13) {
            0..=1 => self.closed.iter_mut().for_each(|sample| *sample |= SF),
            2 => self.closed[..rows].iter_mut().for_each(|sample| *sample |= SF),
            3 => self.closed[rows..].iter_mut().for_each(|sample| *sample |= SF),
            4 => self.closed[(row + 1) % 8] |= SF,
            5 => self.closed[(row + 7) % 8] |= SF,
            _ => self.closed[row] |= SF,
        }
        if self.chance.one_in(6) {
            self.bouncing[row] |= SF;
        }
    }

    /// Opens all SF contacts.
    pub(super) fn open_direct(&mut self) {
        self.closed.iter_mut().for_each(|sample| *sample &= !SF);
    }

    /// Closes all SF contacts for a look or a few, so that no key is seen.
    pub(super) fn hide_all(&mut self) {
        let before = self.closed;
        self.closed.iter_mut().for_each(|sample| *sample |= SF);
        self.looks(3);
        self.closed = before;
    }
}

// The regime.
impl Maker {
    /// Sets some size and lets most keys go.
    pub(super) fn begin_direct(&mut self) {
        let size = self.good_size();
        self.write(0x03, &[size]);
        self.let_go();
        self.open_direct();
    }

    /// A direct key goes down in a row whose keys are held or settle, and goes up later.
    pub(super) fn hide_rows(&mut self) {
        let bounce = self.chance.pick(&[1, 2, 2, 3, 3, 4, 5, 7]);
        let row = self.chance.below(self.rows());
        if self.chance.one_in(4) {
            return self.hide_by_fingers(row);
        }
        self.write(0x02, &[bounce]);
        self.strike(row);
        self.look_on(bounce.into());
        self.close_direct(row);
        for _ in 0..self.chance.between(1, 2) {
            self.go_on_hidden(row, bounce);
            self.aside();
        }
        if !self.chance.one_in(6) {
            self.open_direct();
        }
        self.look();
        self.read(0x10, 2);
        self.look_on(bounce.into());
        self.fetch();
    }

    /// A few looks in a row, often in one block.
    fn look_on(&mut self, most: usize) {
        if self.chance.one_in(2) {
            let count = self.chance.between(1, most);
            self.block(count);
        } else {
            self.looks(most);
        }
    }

    /// What happens while a row is hidden, and looks at it.
    fn go_on_hidden(&mut self, row: usize, bounce: u8) {
        match self.chance.below(16) {
            0..=3 => self.strike(row),
            4..=8 => {
                let lower = self.chance.below(bounce.into()) as u8;
                self.write(0x02, &[lower]);
            }
            9 => self.write(0x03, &[self.size]),
            10 => self.write_some(0x02, 1),
            11 => self.wait_some(),
            _ => {}
        }
        self.look_on(4);
        match self.chance.below(4) {
            0 => self.probe(),
            1..=2 => self.read(0x10, 2),
            _ => {}
        }
    }

    /// Fingers hold a direct key down while others move in its row.
    fn hide_by_fingers(&mut self, row: usize) {
        self.write_some(0x02, 1);
        self.press_at(row, 12);
        for _ in 0..self.chance.between(1, 4) {
            let column = self.chance.below(usize::from(self.size & 0x0F)) as u32;
            if self.closed[row] >> column & 1 == 0 {
                self.press_at(row, column);
            } else {
                self.release_at(row, column);
            }
            if self.chance.one_in(2) {
                self.read(0x10, 2);
            }
        }
        if self.chance.one_in(3) {
            self.wait_some();
        }
        self.release_at(row, 12);
        self.fetch();
    }
}
