// The plain Rust baseline of the workbench's kernels: the same loops and the same checksum.
const COUNT: usize = 1 << 22;

#[inline(always)]
fn field<const W: usize>(word: u64, from: usize) -> u32 {
    ((word >> from) & ((1u64 << W) - 1)) as u32
}

#[inline(always)]
fn unpack_group<const W: usize>(bytes: &[u8]) -> [u32; 8] {
    let mut out = [0u32; 8];
    if W < 8 {
        let mut word = 0u64;
        for i in 0..W {
            word |= (bytes[i] as u64) << (8 * i);
        }
        for (k, value) in out.iter_mut().enumerate() {
            *value = field::<W>(word, k * W);
        }
    } else {
        for (k, value) in out.iter_mut().enumerate() {
            let at = (k * W / 8).min(W - 8);
            let word = u64::from_le_bytes(bytes[at..at + 8].try_into().unwrap());
            *value = field::<W>(word, k * W - 8 * at);
        }
    }
    out
}

fn unpack<const W: usize>(bytes: &[u8], count: usize) -> Vec<u32> {
    let mut out = Vec::with_capacity(count);
    for group in bytes.chunks_exact(W).take(count / 8) {
        out.extend_from_slice(&unpack_group::<W>(group));
    }
    out
}

#[inline(always)]
fn four<const W: usize>(a: u32, b: u32, c: u32, d: u32) -> u128 {
    (((d as u128) << W | c as u128) << W | b as u128) << W | a as u128
}

#[inline(always)]
fn pack_group<const W: usize>(values: &[u32; 8], out: &mut Vec<u8>) {
    let low = four::<W>(values[0], values[1], values[2], values[3]);
    let high = four::<W>(values[4], values[5], values[6], values[7]);
    let half = W / 2;
    let rest = if W % 2 == 1 { high << 4 | low >> (8 * half) } else { high };
    out.extend_from_slice(&low.to_le_bytes()[..half]);
    out.extend_from_slice(&rest.to_le_bytes()[..W - half]);
}

fn pack<const W: usize>(values: &[u32]) -> Vec<u8> {
    let mut seen = 0;
    for value in values {
        seen |= *value;
    }
    assert!((seen as u64) < 1 << W);
    let mut out = Vec::with_capacity((values.len() / 8 + 1) * W);
    for eight in values.chunks_exact(8) {
        pack_group::<W>(eight.try_into().unwrap(), &mut out);
    }
    out
}

fn make_values(width: u32) -> Vec<u32> {
    let mut state: u64 = 0x9e37_79b9_7f4a_7c15;
    (0..COUNT)
        .map(|_| {
            state ^= state << 13;
            state ^= state >> 7;
            state ^= state << 17;
            (state % (1 << 32) % (1u64 << width)) as u32
        })
        .collect()
}

fn run<const W: usize>(kernel: &str, runs: u32) -> u64 {
    let values = make_values(W as u32);
    let bytes = pack::<W>(&values);
    let mut sum: u64 = 0;
    for turn in 0..runs {
        let one = if kernel == "unpack" {
            unpack::<W>(&bytes, COUNT)[turn as usize % COUNT] as u64
        } else {
            match pack::<W>(&values).get(turn as usize % COUNT) {
                Some(byte) => *byte as u64,
                None => continue,
            }
        };
        sum = sum.wrapping_mul(31).wrapping_add(one);
    }
    sum
}

fn main() {
    let args: Vec<String> = std::env::args().collect();
    let (kernel, width) = args[2].split_once('-').unwrap();
    let runs: u32 = args[3].parse().unwrap();
    let sum = match width {
        "1" => run::<1>(kernel, runs),
        "7" => run::<7>(kernel, runs),
        "13" => run::<13>(kernel, runs),
        "20" => run::<20>(kernel, runs),
        "32" => run::<32>(kernel, runs),
        _ => panic!("a width that is not timed"),
    };
    println!("{sum}");
}
