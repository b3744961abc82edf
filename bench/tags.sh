#!/usr/bin/env bash
# How fast the tags of capabilities are made: HMAC-SHA-256 of the 63 bytes that a capability over three members has before its tag.
#   bench/tags.sh [PROGRAM]
# Prints the tags a second, of these and of messages of 4 KiB, and those of a plain Rust program with the same SHA-256, the best of five
# runs each, by the processor time of the process. Without rustc it prints only its own.
set -eu
here=$(cd "$(dirname "$0")" && pwd)
program=${1:-$(bash "$here/../tests/build.sh" xt_bench)}
folder=$(mktemp -d)
trap 'rm -rf "$folder"' EXIT
cat >"$folder/plain.rs" <<'PLAIN'
//! plain SIZE N: makes the tag of a message of SIZE bytes N times.

/// The first 32 bits of the fractional parts of the cube roots of the first 64 primes.
const K: [u32; 64] = [
    0x428a2f98, 0x71374491, 0xb5c0fbcf, 0xe9b5dba5, 0x3956c25b, 0x59f111f1, 0x923f82a4, 0xab1c5ed5,
    0xd807aa98, 0x12835b01, 0x243185be, 0x550c7dc3, 0x72be5d74, 0x80deb1fe, 0x9bdc06a7, 0xc19bf174,
    0xe49b69c1, 0xefbe4786, 0x0fc19dc6, 0x240ca1cc, 0x2de92c6f, 0x4a7484aa, 0x5cb0a9dc, 0x76f988da,
    0x983e5152, 0xa831c66d, 0xb00327c8, 0xbf597fc7, 0xc6e00bf3, 0xd5a79147, 0x06ca6351, 0x14292967,
    0x27b70a85, 0x2e1b2138, 0x4d2c6dfc, 0x53380d13, 0x650a7354, 0x766a0abb, 0x81c2c92e, 0x92722c85,
    0xa2bfe8a1, 0xa81a664b, 0xc24b8b70, 0xc76c51a3, 0xd192e819, 0xd6990624, 0xf40e3585, 0x106aa070,
    0x19a4c116, 0x1e376c08, 0x2748774c, 0x34b0bcb5, 0x391c0cb3, 0x4ed8aa4a, 0x5b9cca4f, 0x682e6ff3,
    0x748f82ee, 0x78a5636f, 0x84c87814, 0x8cc70208, 0x90befffa, 0xa4506ceb, 0xbef9a3f7, 0xc67178f2,
];

/// The hash value before the first block.
const START: [u32; 8] = [
    0x6a09e667, 0xbb67ae85, 0x3c6ef372, 0xa54ff53a, 0x510e527f, 0x9b05688c, 0x1f83d9ab, 0x5be0cd19,
];

/// Takes a block of 64 bytes into the hash value. The schedule is a ring of sixteen words.
fn compress(state: &mut [u32; 8], block: &[u8]) {
    let mut w = [0u32; 16];
    for (word, bytes) in w.iter_mut().zip(block.chunks_exact(4)) {
        *word = u32::from_be_bytes(bytes.try_into().unwrap());
    }
    let [mut a, mut b, mut c, mut d, mut e, mut f, mut g, mut h] = *state;
    for t in 0..64 {
        let i = t % 16;
        if t >= 16 {
            let (x, y) = (w[(i + 1) % 16], w[(i + 14) % 16]);
            let s0 = x.rotate_right(7) ^ x.rotate_right(18) ^ (x >> 3);
            let s1 = y.rotate_right(17) ^ y.rotate_right(19) ^ (y >> 10);
            w[i] = w[i].wrapping_add(s0).wrapping_add(w[(i + 9) % 16]).wrapping_add(s1);
        }
        let s1 = e.rotate_right(6) ^ e.rotate_right(11) ^ e.rotate_right(25);
        let one = h.wrapping_add(s1).wrapping_add(g ^ (e & (f ^ g))).wrapping_add(K[t]).wrapping_add(w[i]);
        let s0 = a.rotate_right(2) ^ a.rotate_right(13) ^ a.rotate_right(22);
        let two = s0.wrapping_add(b ^ ((a ^ b) & (b ^ c)));
        (a, b, c, d, e, f, g, h) = (one.wrapping_add(two), a, b, c, d.wrapping_add(one), e, f, g);
    }
    for (word, more) in state.iter_mut().zip([a, b, c, d, e, f, g, h]) {
        *word = word.wrapping_add(more);
    }
}

/// The SHA-256 of a block of 64 bytes and a message after it.
fn hash(block: &[u8; 64], message: &[u8]) -> [u8; 32] {
    let mut state = START;
    compress(&mut state, block);
    let blocks = message.chunks_exact(64);
    let rest = blocks.remainder();
    blocks.for_each(|block| compress(&mut state, block));
    let mut last = [0u8; 128];
    last[..rest.len()].copy_from_slice(rest);
    last[rest.len()] = 0x80;
    let end = if rest.len() < 56 { 64 } else { 128 };
    let bits = 8 * (64 + message.len() as u64);
    last[end - 8..end].copy_from_slice(&bits.to_be_bytes());
    last[..end].chunks_exact(64).for_each(|block| compress(&mut state, block));
    let mut digest = [0u8; 32];
    for (bytes, word) in digest.chunks_exact_mut(4).zip(state) {
        bytes.copy_from_slice(&word.to_be_bytes());
    }
    digest
}

/// The HMAC-SHA-256 of a message under a key of at most 64 bytes.
fn hmac(key: &[u8], message: &[u8]) -> [u8; 32] {
    let masked = |pad: u8| {
        let mut block = [pad; 64];
        block.iter_mut().zip(key).for_each(|(byte, of_key)| *byte ^= of_key);
        block
    };
    hash(&masked(0x5c), &hash(&masked(0x36), message))
}

fn main() {
    let mut words = std::env::args().skip(1).map(|word| word.parse::<usize>().unwrap());
    let (size, times) = (words.next().unwrap(), words.next().unwrap());
    let mut message = vec![7u8; size];
    for _ in 0..times {
        message[0] = hmac(&[7; 32], &message)[0];
    }
    println!("{}", message[0]);
}
PLAIN
plain=
if command -v rustc >/dev/null && rustc --edition 2021 -O -o "$folder/plain" "$folder/plain.rs"; then plain=$folder/plain; fi
python3 - "$program" "$plain" <<'PYTHON'
import resource
import subprocess
import sys

program, plain = sys.argv[1:]


def seconds(words):
    """The processor seconds of a run with these words: the best of five."""
    runs = []
    for _ in range(5):
        before = resource.getrusage(resource.RUSAGE_CHILDREN)
        subprocess.run(words, check=True, stdout=subprocess.DEVNULL)
        after = resource.getrusage(resource.RUSAGE_CHILDREN)
        runs.append(after.ru_utime + after.ru_stime - before.ru_utime - before.ru_stime)
    return min(runs)


print(f"{'bytes':>6} {'tags/s':>10} {'MB/s':>7} {'plain':>10} {'tags by plain':>14}")
for size, times in ((63, 400_000), (4096, 20_000)):
    ours = seconds([program, "tag", str(size), str(times)])
    line = f"{size:>6} {times / ours:>10.0f} {size * times / ours / 1e6:>7.1f}"
    if plain:
        theirs = seconds([plain, str(size), str(times)])
        line += f" {times / theirs:>10.0f} {theirs / ours:>14.2f}"
    print(line)
PYTHON
