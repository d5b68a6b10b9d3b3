// Derives the triangle's columns 2 to 16 by itself, by linear algebra over GF(2): nothing here is read from the crates.
//
// From the rows of the table for n (the parity's last) it finds, for each shift l from 1 to n, the one pair of error blocks p, q with
// image p xor (image q shifted by l in 2n bits) = 2^(l-1). A column of the table for n + 1 must have with p the parity that is not bit
// 2n - l of image q; these n equations have one solution. Prints a line 'columns' and a line 'pairs' for each size.

// The coefficients, lowest word first, of a combination of the words that is the target: by elimination.
fn solve(words: &[u64], target: u64) -> Option<u64> {
    let mut basis: Vec<(u64, u64)> = Vec::new();
    let reduce = |basis: &[(u64, u64)], mut x: u64, mut c: u64| {
        for &(v, q) in basis {
            if x & (v & v.wrapping_neg()) != 0 {
                x ^= v;
                c ^= q;
            }
        }
        (x, c)
    };
    for (i, &w) in words.iter().enumerate() {
        let (x, c) = reduce(&basis, w, 1 << i);
        if x != 0 {
            basis.push((x, c));
        }
    }
    let (x, c) = reduce(&basis, target, 0);
    if x == 0 { Some(c) } else { None }
}

fn image(rows: &[u64], e: u64) -> u64 {
    rows.iter().enumerate().filter(|(i, _)| e >> i & 1 == 1).fold(0, |x, (_, &r)| x ^ r)
}

fn main() {
    let mut rows: Vec<u64> = vec![1];
    let mut columns = Vec::new();
    let mut lines = Vec::new();
    for n in 1..16usize {
        let mask = (1u64 << (2 * n)) - 1;
        let mut equations = Vec::new();
        let mut wanted = 0u64;
        let mut pairs = Vec::new();
        for l in 1..=n {
            let mut words = rows.clone();
            words.extend(rows.iter().map(|r| r << l & mask));
            let c = solve(&words, 1 << (l - 1)).expect("the rows and the shifted rows span every word");
            let (p, q) = (c & ((1 << n) - 1), c >> n);
            let parity = 1 ^ (image(&rows, q) >> (2 * n - l) & 1);
            equations.push(p);
            wanted |= parity << (l - 1);
            pairs.push(format!("{p} {q}"));
        }
        // the unknown bits of the column, as words of n equations each
        let unknowns: Vec<u64> = (0..n)
            .map(|i| equations.iter().enumerate().fold(0, |x, (l, p)| x | (p >> i & 1) << l))
            .collect();
        let column = solve(&unknowns, wanted).expect("the equations are independent");
        columns.push(column.to_string());
        lines.push(format!("pairs {n}: {}", pairs.join(", ")));
        rows = rows.iter().enumerate().map(|(j, r)| 2 * r | (column >> j & 1) << (2 * n + 1)).collect();
        rows.push(1);
    }
    println!("columns {}", columns.join(" "));
    for line in lines {
        println!("{line}");
    }
}
