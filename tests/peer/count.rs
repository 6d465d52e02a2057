//! How far the cipher calls of a list reached, encipherings of volumes and those of test loads among them, counted from the calls
//! and their answers alone, without head and tables.

#[derive(Default)]
pub struct Count {
    /// Where the last accepted call ended.
    pub position: u64,
    /// The farthest end of a cipher call of one byte or more, or of an enciphering, since the last set up or load. A test load
    /// begins with a set up.
    pub farthest: u64,
}

impl Count {
    /// An accepted set up.
    pub fn set_up(&mut self) {
        *self = Count { position: 0, farthest: 0 };
    }

    /// An accepted load of this string, whose position stands after the code.
    pub fn load(&mut self, string: &[u8]) {
        let mut position = 0;
        let mut worth = 1;
        for byte in &string[1..] {
            position += (*byte as u64 & 0x7F) * worth;
            worth *= 0x80;
            if byte & 0x80 == 0 {
                break;
            }
        }
        *self = Count { position, farthest: position };
    }

    /// An accepted cipher call of so many bytes, or an accepted enciphering of a volume of so many.
    pub fn cipher(&mut self, bytes: usize) {
        self.position += bytes as u64;
        if bytes != 0 {
            self.farthest = self.farthest.max(self.position);
        }
    }

    /// An accepted move.
    pub fn move_by(&mut self, distance: i64) {
        self.position = (self.position as i64 + distance) as u64;
    }

    /// An accepted test load with these words. The seed is not among them.
    pub fn test_load(&mut self, words: &[u32]) {
        self.set_up();
        for word in words {
            let half = *word as usize / 2;
            if word % 2 == 0 {
                self.position = (half % 4_096) as u64;
            } else {
                self.cipher(half % 257);
            }
        }
    }
}
