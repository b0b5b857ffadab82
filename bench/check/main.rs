// Times the proved check on codes of 1,024, 2,048 and 4,096 operations: straight steps, and one long table of rows.
use std::time::Instant;

extern "C" {
    fn pavennuri_check(
        n: u32, v: u32, m: u32, depth: u32,
        operations: *const u8, operations_length: usize,
        operands: *const u64, operands_length: usize,
    ) -> u8;
}

fn check(operations: &[u8], operands: &[u64]) -> u8 {
    let n = operations.len() as u32;
    unsafe {
        pavennuri_check(n, 4, 4, 8, operations.as_ptr(), operations.len(), operands.as_ptr(), operands.len())
    }
}

// MARK, LOAD, CONST, ADD, STORE over and over, then HALTs.
fn steps(n: usize) -> (Vec<u8>, Vec<u64>) {
    let (mut operations, mut operands) = (Vec::new(), Vec::new());
    while operations.len() + 6 <= n {
        operations.extend_from_slice(&[1, 3, 2, 10, 4]);
        operands.extend_from_slice(&[7, 1, 9, 0, 1]);
    }
    operations.resize(n, 0);
    operands.resize(n, 0);
    (operations, operands)
}

// MARK, HALT, ROWS and as many JUMPs to the MARK as fit.
fn rows(n: usize) -> (Vec<u8>, Vec<u64>) {
    let mut operations = vec![1, 0, 25];
    let mut operands = vec![0, 0, (n - 3) as u64];
    operations.resize(n, 22);
    operands.resize(n, 0);
    (operations, operands)
}

fn best(operations: &[u8], operands: &[u64]) -> f64 {
    assert_eq!(check(operations, operands), 0);
    let mut least = f64::MAX;
    for _ in 0..200 {
        let start = Instant::now();
        std::hint::black_box(check(operations, operands));
        least = least.min(start.elapsed().as_secs_f64());
    }
    least * 1e6
}

fn main() {
    println!("operations   steps      rows   (microseconds, best of 200)");
    for n in [1024, 2048, 4096] {
        let (a, b) = (steps(n), rows(n));
        println!("{n:10} {:8.1} {:9.1}", best(&a.0, &a.1), best(&b.0, &b.1));
    }
}
