//! The peer's ciphers against appendix A of both papers, so that a fault of the peer is seen as one.

use crate::ciphers::{self, Cipher};

/// The first sixteen outputs that appendix A of the HC-128 paper prints for its three pairs of key and IV.
pub const HC_128: [[u32; 16]; 3] = [
    [
        0x73150082, 0x3bfd03a0, 0xfb2fd77f, 0xaa63af0e, 0xde122fc6, 0xa7dc29b6, 0x62a68527, 0x8b75ec68, 0x9036db1e, 0x81896005,
        0x00ade078, 0x491fbf9a, 0x1cdc3013, 0x6c3d6e24, 0x90f664b2, 0x9cd57102,
    ],
    [
        0xc01893d5, 0xb7dbe958, 0x8f65ec98, 0x64176604, 0x36fc6724, 0xc82c6eec, 0x1b1c38a7, 0xc9b42a95, 0x323ef123, 0x0a6a908b,
        0xce757b68, 0x9f14f7bb, 0xe4cde011, 0xaeb5173f, 0x89608c94, 0xb5cf46ca,
    ],
    [
        0x518251a4, 0x04b4930a, 0xb02af931, 0x0639f032, 0xbcb4a47a, 0x5722480b, 0x2bf99f72, 0xcdc0e566, 0x310f0c56, 0xd3cc83e8,
        0x663db8ef, 0x62dfe07f, 0x593e1790, 0xc5ceaa9c, 0xab03806f, 0xc9a6e5a0,
    ],
];

/// The exclusive or of 2^20 blocks of sixteen outputs that the HC-128 paper prints for key and IV 0.
const HC_128_A: [u32; 16] = [
    0xa4eac026, 0x7e491126, 0x6a2a384f, 0x5c4e1329, 0xda407fa1, 0x55e6b1ae, 0x05c6fdf3, 0xbbdc8a86, 0x7a699aa0, 0x1a4dc117,
    0x63658ccc, 0xd3e62474, 0x9cf8236f, 0x0131be21, 0xc3a51de9, 0xd12290de,
];

/// The first sixteen outputs that appendix A of the HC-256 paper prints for its three pairs of key and IV.
pub const HC_256: [[u32; 16]; 3] = [
    [
        0x8589075b, 0x0df3f6d8, 0x2fc0c542, 0x5179b6a6, 0x3465f053, 0xf2891f80, 0x8b24744e, 0x18480b72, 0xec2792cd, 0xbf4dcfeb,
        0x7769bf8d, 0xfa14aee4, 0x7b4c50e8, 0xeaf3a9c8, 0xf506016c, 0x81697e32,
    ],
    [
        0xbfa2e2af, 0xe9ce174f, 0x8b05c2fe, 0xb18bb1d1, 0xee42c05f, 0x01312b71, 0xc61f50dd, 0x502a080b, 0xedfec706, 0x633d9241,
        0xa6dac448, 0xaf8561ff, 0x5e04135a, 0x9448c434, 0x2de7e9f3, 0x37520bdf,
    ],
    [
        0xfe4a401c, 0xed5fe24f, 0xd19a8f95, 0x6fc036ae, 0x3c5aa688, 0x23e2abc0, 0x2f90b3ae, 0xa8d30e42, 0x59f03a6c, 0x6e39eb44,
        0x8f7579fb, 0x70137a5e, 0x6d10b7d8, 0xadd0f7cd, 0x723423da, 0xf575dde6,
    ],
];

/// The exclusive or of so many blocks of sixteen outputs.
fn blocks(cipher: Cipher, key: &[u32], iv: &[u32], count: u64) -> [u32; 16] {
    let mut area = ciphers::set_up(cipher, key, iv);
    let mut sum = [0; 16];
    for i in 0..16 * count {
        ciphers::step(cipher, &mut area, i);
        sum[(i % 16) as usize] ^= ciphers::output(cipher, &area, i);
    }
    sum
}

/// Whether the peer gives the seven vectors.
pub fn all_right() -> bool {
    let mut right = true;
    for (cipher, name, vectors) in [(Cipher::Hc128, "HC-128", HC_128), (Cipher::Hc256, "HC-256", HC_256)] {
        let zero = [0; 8];
        let one = [1, 0, 0, 0, 0, 0, 0, 0];
        let fifty_five = [0x55, 0, 0, 0, 0, 0, 0, 0];
        let pairs = [(&zero, &zero), (&zero, &one), (&fifty_five, &zero)];
        for k in 0..3 {
            let is_right = blocks(cipher, pairs[k].0, pairs[k].1, 1) == vectors[k];
            println!("peer, {name} vector {}: {}", k + 1, if is_right { "ok" } else { "wrong" });
            right &= is_right;
        }
        if cipher == Cipher::Hc128 {
            let is_right = blocks(cipher, &zero, &zero, 1 << 20) == HC_128_A;
            println!("peer, {name} vector A: {}", if is_right { "ok" } else { "wrong" });
            right &= is_right;
        }
    }
    right
}
