//! Prints lines of cipher code, key, IV and keystream in hexadecimal, from the archive: keystreams SEED LINES.

#[allow(dead_code)]
#[path = "../archive.rs"]
mod archive;
#[allow(dead_code)]
#[path = "../random.rs"]
mod random;

use archive::HcHead;
use random::Random;

/// The keystream bytes of a line, which go several times through both tables of either cipher.
const STREAM_BYTES: usize = 40_000;

fn hexadecimal(bytes: &[u8]) -> String {
    bytes.iter().map(|byte| format!("{byte:02x}")).collect()
}

fn main() {
    let numbers: Vec<u64> = std::env::args().skip(1).map(|word| word.parse().expect("a number")).collect();
    let mut random = Random::new(numbers[0], 0);
    for _ in 0..numbers[1] {
        for (code, key_bytes, area_words) in [(1, 16, 1024), (2, 32, 2048)] {
            let (key, iv) = (random.bytes(key_bytes), random.bytes(key_bytes));
            let mut head = HcHead { code: 0, word: 0, position: 0, mark: 0 };
            let mut area = vec![0u32; area_words];
            let mut stream = vec![0u8; STREAM_BYTES];
            let area_pointer = area.as_mut_ptr();
            let refusals = unsafe {
                [
                    archive::hc_set_up(
                        &mut head,
                        code,
                        key.as_ptr(),
                        key_bytes,
                        iv.as_ptr(),
                        key_bytes,
                        area_pointer,
                        area_words,
                    ),
                    archive::hc_cipher(&mut head, area_pointer, area_words, stream.as_mut_ptr(), STREAM_BYTES),
                ]
            };
            assert_eq!(refusals, [0, 0]);
            println!("{code} {} {} {}", hexadecimal(&key), hexadecimal(&iv), hexadecimal(&stream));
        }
    }
}
