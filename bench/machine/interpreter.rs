// The same stack machine written by hand in safe Rust: loads a code file, runs it over a roll file, prints the book.
use std::fs;

#[derive(Clone, Copy, Debug, PartialEq)]
enum Fault { Range, Zero, End, Damage(usize), Full, Subscript }

struct Roll<'a> { bytes: &'a [u8], at: usize }

impl Roll<'_> {
    fn take(&mut self) -> Result<i32, Fault> {
        let start = self.at;
        if start >= self.bytes.len() { return Err(Fault::End); }
        let negative = self.bytes[start] == b'-';
        let first = start + negative as usize;
        let (mut at, mut value) = (first, 0u64);
        while at < self.bytes.len() && at < first + 10 && self.bytes[at].is_ascii_digit() {
            value = value * 10 + (self.bytes[at] - b'0') as u64;
            at += 1;
        }
        if at == first || at >= self.bytes.len() || self.bytes[at] != b'\n' || value > 2_000_000_000 {
            return Err(Fault::Damage(start));
        }
        self.at = at + 1;
        Ok(if negative { -(value as i32) } else { value as i32 })
    }
}

fn fit(x: i64) -> Result<i32, Fault> {
    if x < -2_000_000_000 || x > 2_000_000_000 { Err(Fault::Range) } else { Ok(x as i32) }
}

fn element(d: u64, subscript: i32) -> Result<usize, Fault> {
    let (first, count, low) = ((d % 4096) as usize, d / 4096 % 4096, (d / 16777216) as i64 - 10000);
    let offset = subscript as i64 - low;
    if offset < 0 || offset >= count as i64 { return Err(Fault::Subscript); }
    Ok(first + offset as usize)
}

struct Machine<'a> {
    operations: &'a [u8], operands: &'a [u64],
    cells: Vec<i32>, stack: Vec<i32>, depth: usize, book: Vec<i32>, posted: usize, place: usize,
}

impl Machine<'_> {
    fn push(&mut self, v: i32) { self.stack[self.depth] = v; self.depth += 1; }
    fn pop(&mut self) -> i32 { self.depth -= 1; self.stack[self.depth] }
    fn two(&mut self) -> (i32, i32) { let b = self.pop(); let a = self.pop(); (a, b) }

    // From a MARK to the next MARK or HALT.
    fn step(&mut self, roll: &mut Roll) -> Result<(), Fault> {
        self.place += 1;
        loop {
            let x = self.operands[self.place];
            match self.operations[self.place] {
                0 | 1 => return Ok(()),
                2 => self.push(x as i32),
                3 => { let v = self.cells[x as usize]; self.push(v); }
                4 => { let v = self.pop(); self.cells[x as usize] = v; }
                5 => { let i = self.pop(); let v = self.cells[element(x, i)?]; self.push(v); }
                6 => { let (i, v) = self.two(); self.cells[element(x, i)?] = v; }
                7 => { let i = self.pop(); element(x, i)?; self.push(i); }
                8 => {}
                9 => { let v = self.pop(); self.push((v != 0) as i32); }
                10 => { let (a, b) = self.two(); self.push(fit(a as i64 + b as i64)?); }
                11 => { let (a, b) = self.two(); self.push(fit(a as i64 - b as i64)?); }
                12 => { let (a, b) = self.two(); self.push(fit(a as i64 * b as i64)?); }
                13 => { let (a, b) = self.two(); if b == 0 { return Err(Fault::Zero); } self.push(fit(a as i64 / b as i64)?); }
                14 => { let v = self.pop(); self.push(-v); }
                15 => { let (a, b) = self.two(); self.push((a < b) as i32); }
                16 => { let (a, b) = self.two(); self.push((a == b) as i32); }
                17 => { let (a, b) = self.two(); self.push((a > b) as i32); }
                18 => { let v = self.pop(); self.push((v == 0) as i32); }
                19 => { let (a, b) = self.two(); self.push((a != 0 && b != 0) as i32); }
                20 => { let (a, b) = self.two(); self.push((a != 0 || b != 0) as i32); }
                21 => { let (a, b) = self.two(); self.push(((a != 0) == (b != 0)) as i32); }
                22 => { self.place = x as usize; continue; }
                23 => { if self.pop() == 0 { self.place = x as usize; continue; } }
                24 => {
                    let k = self.pop() as i64;
                    if k >= 1 && k <= self.operands[x as usize] as i64 { self.place = x as usize + k as usize; continue; }
                }
                25 | 26 => {}
                27 | 28 => { let i = self.pop(); let cell = element(x, i)?; self.cells[cell] = roll.take()?; }
                29 => {
                    let v = self.pop();
                    if self.posted >= self.book.len() { return Err(Fault::Full); }
                    self.book[self.posted] = v;
                    self.posted += 1;
                }
                _ => unreachable!(),
            }
            self.place += 1;
        }
    }
}

fn main() {
    let arguments: Vec<String> = std::env::args().collect();
    let file = fs::read(&arguments[1]).unwrap();
    let bytes = fs::read(&arguments[2]).unwrap();
    let size = |k: usize| u32::from_le_bytes(file[4 * k..4 * k + 4].try_into().unwrap()) as usize;
    let (n, m, depth) = (size(0), size(2), size(3));
    let operands: Vec<u64> = (0..n)
        .map(|i| u64::from_le_bytes(file[16 + n + 8 * i..24 + n + 8 * i].try_into().unwrap()))
        .collect();
    let mut machine = Machine {
        operations: &file[16..16 + n], operands: &operands, cells: vec![0; m], stack: vec![0; depth], depth: 0,
        book: vec![0; 1024], posted: 0, place: 0,
    };
    let mut roll = Roll { bytes: &bytes, at: 0 };
    let mut count = 0u64;
    while machine.operations[machine.place] != 0 && count < 4_000_000_000 {
        if let Err(fault) = machine.step(&mut roll) { println!("{fault:?}"); break; }
        count += 1;
    }
    println!("{:?} {count}", &machine.book[..machine.posted]);
}
