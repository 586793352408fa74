// The stencil in Rust with std, in one thread: the same grid, steps and summary as `partstencil stencil --make`.
//
//   peer SEED ROWS COLS STEPS DIV [REACH]
//
// The weights are those of the program where REACH is 1, and all ones where it is 2; the edge is 0.
use std::env;

const LIMIT: i64 = 1_000_000_000_000;

fn next_row<const SIDE: usize>(window: &[i64], width: usize, weights: &[i64; 25], div: i64, out: &mut [i64]) {
    let rows: [&[i64]; SIDE] = std::array::from_fn(|a| &window[a * width..][..width]);
    for (x, cell) in out.iter_mut().enumerate() {
        let mut sum = 0;
        for (a, row) in rows.iter().enumerate() {
            for (b, value) in row[x..x + SIDE].iter().enumerate() {
                sum += weights[a * SIDE + b] * value;
            }
        }
        *cell = (sum / div).clamp(-LIMIT, LIMIT);
    }
}

fn main() {
    let words: Vec<i64> = env::args().skip(1).filter_map(|word| word.parse().ok()).collect();
    let (rows, cols, steps, div) = (words[1] as usize, words[2] as usize, words[3], words[4]);
    let reach = words.get(5).map_or(1, |reach| *reach as usize);
    let mut weights = [1; 25];
    if reach == 1 {
        weights[..9].copy_from_slice(&[1, 2, 1, 2, 4, 2, 1, 2, 1]);
    }
    let width = cols + 2 * reach;
    let mut last = vec![0i64; (rows + 2 * reach) * width];
    let mut next = last.clone();
    let mut state = words[0] as u64;
    for y in 0..rows {
        for x in 0..cols {
            state = (1_103_515_245 * state + 12_345) % 2_147_483_648;
            last[(y + reach) * width + reach + x] = (state / 65_536 % 19) as i64 - 9;
        }
    }
    for _ in 0..steps {
        for y in 0..rows {
            let window = &last[y * width..(y + 2 * reach + 1) * width];
            let out = &mut next[(y + reach) * width + reach..][..cols];
            if reach == 1 {
                next_row::<3>(window, width, &weights, div, out);
            } else {
                next_row::<5>(window, width, &weights, div, out);
            }
        }
        std::mem::swap(&mut last, &mut next);
    }
    let cells: Vec<i64> = (0..rows).flat_map(|y| last[(y + reach) * width + reach..][..cols].to_vec()).collect();
    let sum: i128 = cells.iter().map(|v| i128::from(*v)).sum();
    let check: i128 = cells.iter().enumerate().map(|(n, v)| (n as i128 % 1000 + 1) * i128::from(*v)).sum();
    println!("grid {rows} {cols} steps {steps}");
    println!("sum {sum}\nmin {}\nmax {}\ncheck {check}", cells.iter().min().unwrap(), cells.iter().max().unwrap());
}
