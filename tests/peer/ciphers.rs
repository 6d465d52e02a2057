//! HC-128 and HC-256 as document 01 and the two papers define them, with the inverse of each part.

/// The two ciphers.
#[derive(Clone, Copy, PartialEq, Debug)]
pub enum Cipher {
    Hc128,
    Hc256,
}

impl Cipher {
    /// The cipher that a code names, all 32 bits of it.
    pub fn of_code(code: u32) -> Option<Cipher> {
        match code {
            1 => Some(Cipher::Hc128),
            2 => Some(Cipher::Hc256),
            _ => None,
        }
    }

    /// The code that names the cipher.
    pub fn code(self) -> u32 {
        match self {
            Cipher::Hc128 => 1,
            Cipher::Hc256 => 2,
        }
    }

    /// The words of one table.
    pub fn table_words(self) -> usize {
        match self {
            Cipher::Hc128 => 512,
            Cipher::Hc256 => 1024,
        }
    }

    /// The words of an area, which is P and then Q.
    pub fn area_words(self) -> usize {
        2 * self.table_words()
    }

    /// The bytes of a key, which are also those of an IV.
    pub fn key_bytes(self) -> usize {
        match self {
            Cipher::Hc128 => 16,
            Cipher::Hc256 => 32,
        }
    }

    /// The length of the list W.
    pub fn expansion_words(self) -> usize {
        match self {
            Cipher::Hc128 => 1280,
            Cipher::Hc256 => 2560,
        }
    }
}

/// Four bytes to a word, least significant first.
pub fn words_of_bytes(bytes: &[u8]) -> Vec<u32> {
    bytes.chunks(4).map(|b| u32::from_le_bytes([b[0], b[1], b[2], b[3]])).collect()
}

/// A word to four bytes, least significant first.
pub fn bytes_of_words(words: &[u32]) -> Vec<u8> {
    words.iter().flat_map(|w| w.to_le_bytes()).collect()
}

fn f1(x: u32) -> u32 {
    x.rotate_right(7) ^ x.rotate_right(18) ^ (x >> 3)
}

fn f2(x: u32) -> u32 {
    x.rotate_right(17) ^ x.rotate_right(19) ^ (x >> 10)
}

/// W0 to W15 for a key and an IV, given as words.
pub fn first_words(cipher: Cipher, key: &[u32], iv: &[u32]) -> [u32; 16] {
    let mut first = [0; 16];
    for i in 0..8 {
        first[i] = match cipher {
            Cipher::Hc128 => key[i % 4],
            Cipher::Hc256 => key[i],
        };
        first[8 + i] = match cipher {
            Cipher::Hc128 => iv[i % 4],
            Cipher::Hc256 => iv[i],
        };
    }
    first
}

/// The key and IV words that stand in W0 to W15, of which HC-128 has each twice and only the first are taken.
pub fn key_and_iv_of_first_words(cipher: Cipher, first: &[u32; 16]) -> (Vec<u32>, Vec<u32>) {
    let words = cipher.key_bytes() / 4;
    (first[0..words].to_vec(), first[8..8 + words].to_vec())
}

/// The whole list W from its first sixteen words.
pub fn expand(cipher: Cipher, first: &[u32; 16]) -> Vec<u32> {
    let mut w = first.to_vec();
    for i in 16..cipher.expansion_words() {
        let next = f2(w[i - 2]).wrapping_add(w[i - 7]).wrapping_add(f1(w[i - 15])).wrapping_add(w[i - 16]).wrapping_add(i as u32);
        w.push(next);
    }
    w
}

/// The tables before the last pass of set-up, from the list W.
pub fn tables_of_expansion(cipher: Cipher, w: &[u32]) -> Vec<u32> {
    w[cipher.table_words() / 2..].to_vec()
}

/// W0 to W15 by the expansion taken back from the first sixteen words of P.
pub fn first_words_of_tables(cipher: Cipher, tables: &[u32]) -> [u32; 16] {
    let start = cipher.table_words() / 2;
    let mut w = vec![0; start];
    w.extend_from_slice(&tables[0..16]);
    for i in (16..start + 16).rev() {
        w[i - 16] = w[i].wrapping_sub(f2(w[i - 2])).wrapping_sub(w[i - 7]).wrapping_sub(f1(w[i - 15])).wrapping_sub(i as u32);
    }
    let mut first = [0; 16];
    first.copy_from_slice(&w[0..16]);
    first
}

/// Where in the area step i finds the changing table, the other table, and j in the changing table.
fn places(table_words: usize, i: u64) -> (usize, usize, usize) {
    let j = (i % table_words as u64) as usize;
    if i % (2 * table_words as u64) < table_words as u64 {
        (0, table_words, j)
    } else {
        (table_words, 0, j)
    }
}

/// What A[j] grows by at step i; A[j] itself is not read, so it is the same before and after the step.
fn growth(cipher: Cipher, area: &[u32], i: u64) -> u32 {
    match cipher {
        Cipher::Hc128 => {
            let (a, _, j) = places(512, i);
            let x = area[a + (j + 509) % 512];
            let y = area[a + (j + 502) % 512];
            let z = area[a + (j + 1) % 512];
            if a == 0 {
                (x.rotate_right(10) ^ z.rotate_right(23)).wrapping_add(y.rotate_right(8))
            } else {
                (x.rotate_left(10) ^ z.rotate_left(23)).wrapping_add(y.rotate_left(8))
            }
        }
        Cipher::Hc256 => {
            let (a, b, j) = places(1024, i);
            let x = area[a + (j + 1021) % 1024];
            let y = area[a + (j + 1) % 1024];
            let g = (x.rotate_right(10) ^ y.rotate_right(23)).wrapping_add(area[b + ((x ^ y) % 1024) as usize]);
            area[a + (j + 1014) % 1024].wrapping_add(g)
        }
    }
}

/// h(A[j-12]) at step i.
fn filter(cipher: Cipher, area: &[u32], i: u64) -> u32 {
    match cipher {
        Cipher::Hc128 => {
            let (a, b, j) = places(512, i);
            let x = area[a + (j + 500) % 512].to_le_bytes();
            area[b + x[0] as usize].wrapping_add(area[b + 256 + x[2] as usize])
        }
        Cipher::Hc256 => {
            let (a, b, j) = places(1024, i);
            let x = area[a + (j + 1012) % 1024].to_le_bytes();
            area[b + x[0] as usize]
                .wrapping_add(area[b + 256 + x[1] as usize])
                .wrapping_add(area[b + 512 + x[2] as usize])
                .wrapping_add(area[b + 768 + x[3] as usize])
        }
    }
}

/// The place in the area of the word that step i changes.
fn changed(cipher: Cipher, i: u64) -> usize {
    (i % cipher.area_words() as u64) as usize
}

/// Step i.
pub fn step(cipher: Cipher, area: &mut [u32], i: u64) {
    let at = changed(cipher, i);
    area[at] = area[at].wrapping_add(growth(cipher, area, i));
}

/// The inverse of step i.
pub fn step_back(cipher: Cipher, area: &mut [u32], i: u64) {
    let at = changed(cipher, i);
    area[at] = area[at].wrapping_sub(growth(cipher, area, i));
}

/// The output of step i, from the tables right after it.
pub fn output(cipher: Cipher, area: &[u32], i: u64) -> u32 {
    filter(cipher, area, i) ^ area[changed(cipher, i)]
}

/// The last pass of set-up, which makes the tables before step 0 from the expanded ones.
pub fn last_pass(cipher: Cipher, area: &mut [u32]) {
    match cipher {
        Cipher::Hc128 => {
            for i in 0..1024 {
                let at = changed(cipher, i);
                area[at] = area[at].wrapping_add(growth(cipher, area, i)) ^ filter(cipher, area, i);
            }
        }
        Cipher::Hc256 => {
            for i in 0..4096 {
                step(cipher, area, i);
            }
        }
    }
}

/// The inverse of the last pass of set-up.
pub fn last_pass_back(cipher: Cipher, area: &mut [u32]) {
    match cipher {
        Cipher::Hc128 => {
            for i in (0..1024).rev() {
                let at = changed(cipher, i);
                area[at] = (area[at] ^ filter(cipher, area, i)).wrapping_sub(growth(cipher, area, i));
            }
        }
        Cipher::Hc256 => {
            for i in (0..4096).rev() {
                step_back(cipher, area, i);
            }
        }
    }
}

/// The tables before step 0 for a key and an IV, given as words.
pub fn set_up(cipher: Cipher, key: &[u32], iv: &[u32]) -> Vec<u32> {
    let w = expand(cipher, &first_words(cipher, key, iv));
    let mut area = tables_of_expansion(cipher, &w);
    last_pass(cipher, &mut area);
    area
}

/// Takes the tables from a number of steps to a larger one.
pub fn steps_forward(cipher: Cipher, area: &mut [u32], from: u64, to: u64) {
    for i in from..to {
        step(cipher, area, i);
    }
}

/// Takes the tables from a number of steps back to a smaller one.
pub fn steps_back(cipher: Cipher, area: &mut [u32], from: u64, to: u64) {
    for i in (to..from).rev() {
        step_back(cipher, area, i);
    }
}
