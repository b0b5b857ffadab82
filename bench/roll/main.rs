// Times the proved text roll against the same loop in plain safe Rust, on the same bytes, in the same run.
use std::time::Instant;

extern "C" {
    fn pavennuri_roll_count(bytes: *const u8, length: usize) -> u64;
}

fn proved(bytes: &[u8]) -> u64 {
    unsafe { pavennuri_roll_count(bytes.as_ptr(), bytes.len()) }
}

// One line: its figure and the place of the next line.
fn read_line(bytes: &[u8], start: usize) -> Option<(i32, usize)> {
    let negative = bytes[start] == b'-';
    let first = if negative { start + 1 } else { start };
    let mut at = first;
    let mut value: u64 = 0;
    while at < bytes.len() && at < first + 10 && bytes[at].is_ascii_digit() {
        value = value * 10 + (bytes[at] - b'0') as u64;
        at += 1;
    }
    if at == first || at >= bytes.len() || bytes[at] != b'\n' || value > 2_000_000_000 {
        return None;
    }
    Some((if negative { -(value as i32) } else { value as i32 }, at + 1))
}

#[inline(never)]
fn plain(bytes: &[u8]) -> (u64, Option<i32>) {
    let (mut at, mut count, mut sum) = (0, 0u64, Some(0i32));
    while at < bytes.len() {
        let Some((figure, next)) = read_line(bytes, at) else { break };
        count += 1;
        sum = sum.and_then(|s| {
            let t = s as i64 + figure as i64;
            if t.abs() <= 2_000_000_000 { Some(t as i32) } else { None }
        });
        at = next;
    }
    (count, sum)
}

fn best<T>(mut f: impl FnMut() -> T) -> f64 {
    let mut least = f64::MAX;
    for _ in 0..9 {
        let start = Instant::now();
        std::hint::black_box(f());
        least = least.min(start.elapsed().as_secs_f64());
    }
    least
}

fn main() {
    let mut bytes = Vec::new();
    let mut seed: u64 = 1;
    while bytes.len() < 32_000_000 {
        seed = seed.wrapping_mul(6364136223846793005).wrapping_add(1442695040888963407);
        let figure = (seed >> 33) as i64 % 100_000 - 20_000;
        bytes.extend_from_slice(format!("{figure}\n").as_bytes());
    }
    assert_eq!(proved(&bytes), plain(&bytes).0);
    let megabytes = bytes.len() as f64 / 1e6;
    let (p, r) = (best(|| proved(&bytes)), best(|| plain(&bytes)));
    println!("roll of {megabytes:.1} MB, best of 9 runs each");
    println!("proved text roll   {:7.0} MB/s", megabytes / p);
    println!("plain safe Rust    {:7.0} MB/s", megabytes / r);
    println!("time, proved : plain  {:.2}", p / r);
}
