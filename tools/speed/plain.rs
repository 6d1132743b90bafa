//! The work of hail_bench's put-stripes and get-stripes in safe Rust without lanes: a yardstick. It makes the same
//! blocks and tells the same checksum, and opens clean blocks alone. Nothing of it is proved, and nothing stands on it.
//!
//!     rustc --edition 2021 -C opt-level=3 -o plain plain.rs
//!     plain put-stripes N L B PROFILE BYTES
//!     plain get-stripes N L B PROFILE BYTES
use std::time::Instant;

const SIZES: [usize; 5] = [6, 16, 32, 64, 128];
const KEEPS: [usize; 5] = [2, 8, 24, 48, 96];

/// The product of two numbers of some bits in the nim field, from the products of their halves.
fn small_product(a: u32, b: u32, bits: u32) -> u32 {
    if bits == 1 {
        return a & b;
    }
    let half = bits / 2;
    let mask = (1 << half) - 1;
    let (a1, a0, b1, b0) = (a >> half, a & mask, b >> half, b & mask);
    let low = small_product(a0, b0, half);
    let top = small_product(a1, b1, half);
    let whole = small_product(a1 ^ a0, b1 ^ b0, half);
    (whole ^ low) << half | (low ^ small_product(top, 1 << (half - 1), half))
}

/// The products of all bytes.
struct Field(Vec<[u8; 256]>);

impl Field {
    fn new() -> Field {
        Field((0..256).map(|a| std::array::from_fn(|b| small_product(a, b as u32, 8) as u8)).collect())
    }

    fn byte_mul(&self, a: u8, b: u8) -> u8 {
        self.0[a as usize][b as usize]
    }

    fn product(&self, a: u128, b: u128, bits: u32) -> u128 {
        if bits == 8 {
            return self.byte_mul(a as u8, b as u8).into();
        }
        let half = bits / 2;
        let mask = (1 << half) - 1;
        let (a1, a0, b1, b0) = (a >> half, a & mask, b >> half, b & mask);
        let low = self.product(a0, b0, half);
        let top = self.product(a1, b1, half);
        let whole = self.product(a1 ^ a0, b1 ^ b0, half);
        (whole ^ low) << half | (low ^ self.product(top, 1 << (half - 1), half))
    }

    fn mul(&self, a: u128, b: u128) -> u128 {
        self.product(a, b, 128)
    }

    fn inverse(&self, a: u128, bits: u32) -> u128 {
        if bits == 8 {
            return (1..=255).find(|b| self.byte_mul(a as u8, *b) == 1).unwrap_or(0).into();
        }
        let half = bits / 2;
        let (a1, a0) = (a >> half, a & ((1 << half) - 1));
        let square = self.product(a1, a1, half);
        let norm = self.product(a0, a0 ^ a1, half) ^ self.product(square, 1 << (half - 1), half);
        let of = self.inverse(norm, half);
        self.product(a1, of, half) << half | self.product(a0 ^ a1, of, half)
    }

    /// A byte times a symbol acts on each of its bytes by itself.
    #[inline(always)]
    fn scaled(&self, c: u8, s: u128) -> u128 {
        let of = &self.0[c as usize];
        u128::from_le_bytes(s.to_le_bytes().map(|b| of[b as usize]))
    }
}

/// The products of a constant with each half byte of a symbol.
struct Table(Box<[[u128; 16]; 32]>);

impl Table {
    fn new(field: &Field, c: u128) -> Table {
        Table(Box::new(std::array::from_fn(|place| {
            let powers: [u128; 4] = std::array::from_fn(|bit| field.mul(c, 1 << (4 * place + bit)));
            std::array::from_fn(|v| (0..4).filter(|bit| v >> bit & 1 == 1).fold(0, |sum, bit| sum ^ powers[bit]))
        })))
    }

    #[inline(always)]
    fn times(&self, s: u128) -> u128 {
        let mut rest = s;
        let mut sum = 0;
        for of in self.0.iter() {
            sum ^= of[(rest & 15) as usize];
            rest >>= 4;
        }
        sum
    }
}

/// The server code: the factors of the additive transform, and for profiles 0 and 1 the coefficients of each place.
struct Code {
    profile: usize,
    twiddles: [u8; 256],
    rows: Vec<Vec<u8>>,
}

impl Code {
    fn new(field: &Field, profile: usize) -> Code {
        let mut twiddles = [0; 256];
        for level in 1..8 {
            for h in 128 >> level..256 >> level {
                let mut x = ((h << level) - 128) as u8;
                for _ in 1..level {
                    x = field.byte_mul(x, x ^ 1);
                }
                twiddles[h] = x;
            }
        }
        let keep = KEEPS[profile];
        let weight = |i: usize, k: usize| {
            (0..keep).filter(|q| *q != k).fold(1, |weight, q| {
                let gap = field.inverse((k ^ q) as u128, 8) as u8;
                field.byte_mul(weight, field.byte_mul((i ^ q) as u8, gap))
            })
        };
        let rows = if profile < 2 { keep..SIZES[profile] } else { 0..0 };
        let rows = rows.map(|i| (0..keep).map(|k| weight(i, k)).collect()).collect();
        Code { profile, twiddles, rows }
    }

    /// Fills the places behind the kept ones of a block.
    fn extend(&self, field: &Field, kept: &[u128], rest: &mut [u128]) {
        if self.profile < 2 {
            for (out, row) in rest.iter_mut().zip(&self.rows) {
                *out = row.iter().zip(kept).fold(0, |sum, (c, s)| sum ^ field.scaled(*c, *s));
            }
            return;
        }
        let level = self.profile + 1;
        let node = 128 >> level;
        let mut buffer = [0; 32];
        let part = &mut buffer[..rest.len()];
        rest.fill(0);
        for (q, quarter) in kept.chunks_exact(part.len()).enumerate() {
            part.copy_from_slice(quarter);
            self.to_coefficients(field, part, level, node + q);
            for (sum, more) in rest.iter_mut().zip(part.iter()) {
                *sum ^= more;
            }
        }
        self.to_values(field, rest, level, node + 3);
    }

    fn to_coefficients(&self, field: &Field, v: &mut [u128], level: usize, h: usize) {
        for i in 1..=level {
            for (q, pair) in v.chunks_exact_mut(1 << i).enumerate() {
                let c = self.twiddles[(h << (level - i)) + q];
                let (left, right) = pair.split_at_mut(1 << (i - 1));
                for (a, b) in left.iter_mut().zip(right) {
                    *b ^= *a;
                    *a ^= field.scaled(c, *b);
                }
            }
        }
    }

    fn to_values(&self, field: &Field, v: &mut [u128], level: usize, h: usize) {
        for i in (1..=level).rev() {
            for (q, pair) in v.chunks_exact_mut(1 << i).enumerate() {
                let c = self.twiddles[(h << (level - i)) + q];
                let (left, right) = pair.split_at_mut(1 << (i - 1));
                for (a, b) in left.iter_mut().zip(right) {
                    *a ^= field.scaled(c, *b);
                    *b ^= *a;
                }
            }
        }
    }

    fn is_codeword(&self, field: &Field, block: &[u128]) -> bool {
        let (kept, seen) = block.split_at(KEEPS[self.profile]);
        let mut buffer = [0; 32];
        let rest = &mut buffer[..seen.len()];
        self.extend(field, kept, rest);
        rest == seen
    }
}

/// The constants of SHA-256 (FIPS 180-4): the first bits of the fraction of a root of the first primes.
fn root_bits(count: usize, power: u32, shift: u32) -> Vec<u32> {
    let primes = (2u128..).filter(|n| (2..*n).all(|d| n % d != 0)).take(count);
    let root = |n: u128| {
        let (mut low, mut high) = (0u128, 1u128 << 36);
        while low + 1 < high {
            let middle = (low + high) / 2;
            if middle.pow(power) <= n << shift { low = middle } else { high = middle }
        }
        low as u32
    };
    primes.map(root).collect()
}

/// SHA-256 of a message of one block.
fn sha256(message: &[u8]) -> [u8; 32] {
    let h = root_bits(8, 2, 64);
    let k = root_bits(64, 3, 96);
    let mut block = [0; 64];
    block[..message.len()].copy_from_slice(message);
    block[message.len()] = 0x80;
    block[62..].copy_from_slice(&(message.len() as u16 * 8).to_be_bytes());
    let mut w: Vec<u32> = block.chunks(4).map(|c| u32::from_be_bytes(c.try_into().unwrap())).collect();
    for i in 16..64 {
        let (x, y) = (w[i - 15], w[i - 2]);
        let one = x.rotate_right(7) ^ x.rotate_right(18) ^ x >> 3;
        let two = y.rotate_right(17) ^ y.rotate_right(19) ^ y >> 10;
        w.push(w[i - 16].wrapping_add(one).wrapping_add(w[i - 7]).wrapping_add(two));
    }
    let mut v = h.clone();
    for i in 0..64 {
        let (a, e) = (v[0], v[4]);
        let one = v[7].wrapping_add(e.rotate_right(6) ^ e.rotate_right(11) ^ e.rotate_right(25));
        let one = one.wrapping_add(e & v[5] ^ !e & v[6]).wrapping_add(k[i]).wrapping_add(w[i]);
        let two = a.rotate_right(2) ^ a.rotate_right(13) ^ a.rotate_right(22);
        let two = two.wrapping_add(a & v[1] ^ a & v[2] ^ v[1] & v[2]);
        v.rotate_right(1);
        v[4] = v[4].wrapping_add(one);
        v[0] = one.wrapping_add(two);
    }
    let mut out = [0; 32];
    for i in 0..8 {
        out[4 * i..4 * i + 4].copy_from_slice(&h[i].wrapping_add(v[i]).to_be_bytes());
    }
    out
}

fn file_key(label: u8, provider: usize) -> [u8; 32] {
    let mut message = [0; 45];
    message[..32].fill(7);
    message[32] = label;
    message[33] = 1;
    message[41] = provider as u8;
    sha256(&message)
}

/// A block of ChaCha20 (RFC 8439, with a 64-bit block number): the masks of four rows.
fn four_masks(key: &[u8; 32], block: u64) -> [u128; 4] {
    let mut start = [0x61707865u32, 0x3320646e, 0x79622d32, 0x6b206574, 0, 0, 0, 0, 0, 0, 0, 0, block as u32, (block >> 32) as u32, 0, 0];
    for k in 0..8 {
        start[4 + k] = u32::from_le_bytes(key[4 * k..4 * k + 4].try_into().unwrap());
    }
    let mut s = start;
    let mut quarter = |a: usize, b: usize, c: usize, d: usize| {
        s[a] = s[a].wrapping_add(s[b]);
        s[d] = (s[d] ^ s[a]).rotate_left(16);
        s[c] = s[c].wrapping_add(s[d]);
        s[b] = (s[b] ^ s[c]).rotate_left(12);
        s[a] = s[a].wrapping_add(s[b]);
        s[d] = (s[d] ^ s[a]).rotate_left(8);
        s[c] = s[c].wrapping_add(s[d]);
        s[b] = (s[b] ^ s[c]).rotate_left(7);
    };
    for _ in 0..10 {
        for k in 0..4 {
            quarter(k, 4 + k, 8 + k, 12 + k);
        }
        for k in 0..4 {
            quarter(k, 4 + (k + 1) % 4, 8 + (k + 2) % 4, 12 + (k + 3) % 4);
        }
    }
    std::array::from_fn(|q| {
        (0..4).rev().fold(0, |sum, k| sum << 32 | u128::from(s[4 * q + k].wrapping_add(start[4 * q + k])))
    })
}

/// Adds the masks of the rows from one on.
fn add_masks(key: &[u8; 32], first: u64, block: &mut [u128]) {
    let mut masks = [0; 4];
    for (k, s) in block.iter_mut().enumerate() {
        let row = first + k as u64;
        if k == 0 || row % 4 == 0 {
            masks = four_masks(key, row / 4);
        }
        *s ^= masks[(row % 4) as usize];
    }
}

/// What the columns of an object are made with.
struct Object {
    field: Field,
    code: Code,
    shape: (usize, usize, usize),
    mask_keys: Vec<[u8; 32]>,
    tables: Vec<Vec<Table>>,
}

impl Object {
    fn new((n, l, b): (usize, usize, usize), profile: usize) -> Object {
        let field = Field::new();
        let code = Code::new(&field, profile);
        let weight = |x: u128, k: usize| {
            let (mut above, mut below) = (1, 1);
            for i in (0..l).filter(|i| *i != k) {
                above = field.mul(above, x ^ i as u128);
                below = field.mul(below, (k ^ i) as u128);
            }
            field.mul(above, field.inverse(below, 128))
        };
        let tables = (l..n).map(|j| {
            let mut key = file_key(b'P', j);
            key[0] = j as u8;
            let x = u128::from_le_bytes(key[..16].try_into().unwrap());
            (1..l).map(|k| Table::new(&field, weight(x, k))).collect()
        });
        let tables = tables.collect();
        let mask_keys = (0..n).map(|j| file_key(b'M', j)).collect();
        Object { field, code, shape: (n, l, b), mask_keys, tables }
    }

    /// The kept symbols of a secondary provider: the weights of a row sum to 1.
    fn kept_of(&self, symbols: &[u128], j: usize, kept: &mut [u128]) {
        let first = &symbols[..kept.len()];
        kept.copy_from_slice(first);
        for (table, others) in self.tables[j - self.shape.1].iter().zip(symbols.chunks_exact(first.len()).skip(1)) {
            for ((out, other), first) in kept.iter_mut().zip(others).zip(first) {
                *out ^= table.times(other ^ first);
            }
        }
    }

    fn column(&self, stripe: usize, symbols: &[u128], j: usize, block: &mut [u128]) {
        let keep = KEEPS[self.code.profile];
        let size = block.len();
        let (kept, rest) = block.split_at_mut(keep);
        if j < self.shape.1 {
            kept.copy_from_slice(&symbols[j * keep..][..keep]);
        } else {
            self.kept_of(symbols, j, kept);
        }
        self.code.extend(&self.field, kept, rest);
        if j >= self.shape.1 {
            add_masks(&self.mask_keys[j], (stripe * size) as u64, block);
        }
    }

    /// Opens a stripe of which all blocks are clean, from all providers but b; false where they are not.
    fn open_clean(&self, stripe: usize, seen: &[u128], symbols: &mut [u128]) -> bool {
        let (n, l, b) = self.shape;
        let (size, keep) = (SIZES[self.code.profile], KEEPS[self.code.profile]);
        let (mut buffer, mut room) = ([0; 128], [0; 96]);
        let (block, kept) = (&mut buffer[..size], &mut room[..keep]);
        for j in 0..n - b {
            block.copy_from_slice(&seen[j * size..][..size]);
            if j >= l {
                add_masks(&self.mask_keys[j], (stripe * size) as u64, block);
            }
            if !self.code.is_codeword(&self.field, block) {
                return false;
            }
            if j < l {
                symbols[j * keep..][..keep].copy_from_slice(&block[..keep]);
                continue;
            }
            self.kept_of(symbols, j, kept);
            if kept != &block[..keep] {
                return false;
            }
        }
        true
    }
}

fn after(x: u128) -> u128 {
    x.wrapping_mul(290_540_817_353_171_031_345_215_227_939_350_468_789).wrapping_add(1)
}

/// The checksum after a block, the last symbol first.
fn mix_all(sum: u128, block: &[u128]) -> u128 {
    block.iter().rev().fold(sum, |sum, s| after(sum ^ s))
}

fn make_file(length: usize) -> Vec<u8> {
    let mut x = 1;
    let next = |_| {
        let byte = (x >> 120) as u8;
        x = after(x);
        byte
    };
    (0..length).map(next).collect()
}

fn symbols_into(bytes: &[u8], stripe: usize, symbols: &mut [u128]) {
    let count = symbols.len();
    for (k, s) in symbols.iter_mut().enumerate() {
        let start = (16 * (stripe * count + k)).min(bytes.len());
        let end = (start + 16).min(bytes.len());
        let mut all = [0; 16];
        all[..end - start].copy_from_slice(&bytes[start..end]);
        *s = u128::from_le_bytes(all);
    }
}

fn main() {
    let words: Vec<String> = std::env::args().skip(1).collect();
    let number = |k: usize| words[k].parse::<usize>().expect("a number");
    let (shape, profile, length) = ((number(1), number(2), number(3)), number(4), number(5));
    let (n, l, _) = shape;
    let (size, keep) = (SIZES[profile], KEEPS[profile]);
    let stripes = length.div_ceil(16 * l * keep);
    let bytes = make_file(length);
    let mut symbols = vec![0; l * keep];
    let mut blocks = vec![0; n * size];
    let is_put = words[0] == "put-stripes";
    let mut seen = Vec::new();
    if !is_put {
        let object = Object::new(shape, profile);
        for stripe in 0..stripes {
            symbols_into(&bytes, stripe, &mut symbols);
            for j in 0..n {
                object.column(stripe, &symbols, j, &mut blocks[j * size..][..size]);
            }
            seen.extend_from_slice(&blocks);
        }
    }
    let start = Instant::now();
    let object = Object::new(shape, profile);
    let mut sum = 0;
    for stripe in 0..stripes {
        if is_put {
            symbols_into(&bytes, stripe, &mut symbols);
            for (j, block) in blocks.chunks_exact_mut(size).enumerate() {
                object.column(stripe, &symbols, j, block);
                sum = mix_all(sum, block);
            }
        } else {
            let stripe_seen = &seen[stripe * n * size..][..n * size];
            assert!(object.open_clean(stripe, stripe_seen, &mut symbols), "blocks that are not clean");
            sum = mix_all(sum, &symbols);
        }
    }
    let nanos = start.elapsed().as_nanos();
    println!("{} checksum {sum:032x}", words.join(" "));
    eprintln!("{stripes} in {nanos} ns");
}
