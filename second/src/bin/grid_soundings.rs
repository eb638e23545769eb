//! Prints what the Rattle program crates/grid_soundings has to print, worked out by the second program.
use second::grid;

fn raised(z: i32) -> u64 {
    (z as i64 + (1 << 31)) as u64
}

fn show(bytes: &[u8]) {
    for b in bytes {
        print!("{b} ");
    }
    println!();
}

fn test(file: &[u8]) {
    let (refusal, rows, columns, greatest, least) = grid::test(file);
    println!("{refusal} {rows} {columns} {} {} ", raised(greatest), raised(least));
}

fn build_into(levels: &[i32], rows: u64, columns: u64, buffer: &mut [u8]) -> usize {
    let (refusal, amount) = grid::build(levels, rows, columns, buffer);
    println!("{refusal} {amount} ");
    show(buffer);
    amount as usize
}

fn build(levels: &[i32], rows: u64, columns: u64) {
    let mut buffer = [7; 256];
    let n = build_into(levels, rows, columns, &mut buffer);
    if n <= 256 {
        test(&buffer[..n]);
    }
}

fn forge(levels: &[i32], rows: u64, columns: u64) {
    let mut buffer = [0; 256];
    let n = grid::build(levels, rows, columns, &mut buffer).1 as usize;
    test(&buffer[..n + 1]);
    for end in 0..n {
        test(&buffer[..end]);
    }
    for i in 0..n {
        for b in [0, 1, 3, 255] {
            let mut copy = buffer;
            copy[i] = b;
            test(&copy[..n]);
        }
    }
}

fn main() {
    build(&[-7], 1, 1);
    build(&[-7], 0, 1);
    build(&[-7], 1, 2);
    build(&[3, 1, 2, 5], 2, 2);
    let c = [5, 5, 7, 5, 5, 7, 5, 5, 9];
    build(&c, 3, 3);
    build(&[6, 5, 7, 5, 5, 7, 5, 5, 9], 3, 3);
    build(&c.map(|v: i32| -v), 3, 3);
    let mut steep: Vec<i32> = (0..40).collect();
    (steep[0], steep[4], steep[18]) = (-900, 70_000, -18);
    build(&steep, 5, 8);
    for (a, b) in [
        (0, 255),
        (0, 256),
        (0, 65_535),
        (0, 65_536),
        (grid::LOWEST, grid::HIGHEST),
        (grid::LOWEST - 1, grid::HIGHEST),
        (grid::LOWEST, grid::HIGHEST + 1),
    ] {
        build(&[a, b], 1, 2);
    }
    let row = [3; 1_025];
    build(&row[..1_024], 1, 1_024);
    build(&row, 1, 1_025);
    build(&row[..1_024], 1_024, 1);
    build(&row, 1_025, 1);
    build_into(&c, 3, 3, &mut [7; 69]);
    forge(&c, 3, 3);
    forge(&steep, 5, 8);
    let sections = |heading: [u32; 5], rest: [Vec<u8>; 11]| {
        let bodies = rest.into_iter().enumerate().map(|(i, bytes)| {
            let bits = [0, 2, 4, 7, 9].contains(&i);
            let count = if bits { bytes[0] as u32 } else { bytes.len() as u32 };
            [&count.to_le_bytes()[..], if bits { &bytes[1..] } else { &bytes }].concat()
        });
        [heading.map(u32::to_le_bytes).concat(), bodies.collect::<Vec<_>>().concat()].concat()
    };
    // Grid C with its even upper left square split, each bit section as its count and its bytes.
    test(&sections(
        [4, 3, 3, 9, 5],
        [
            vec![4, 1],
            vec![4, 2, 4, 0, 0, 0, 0, 0],
            vec![8, 0],
            vec![],
            vec![0],
            vec![],
            vec![0],
            vec![1, 0],
            vec![],
            vec![0],
            vec![],
        ],
    ));
    // 0 and 255 with a second byte that is 0.
    test(&sections(
        [4, 1, 2, 255, 0],
        [
            vec![0],
            vec![255, 0, 0, 0],
            vec![4, 1],
            vec![0],
            vec![1, 0],
            vec![],
            vec![],
            vec![0],
            vec![],
            vec![0],
            vec![],
        ],
    ));
}
