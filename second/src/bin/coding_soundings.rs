//! Prints what the Rattle program crates/coding_soundings has to print, worked out by the second program.
use second::coding::{count_ones, look_up, pack};

fn show_pack(numbers: &[u32], room: usize) {
    let mut buffer = [7u8; 64];
    let (refusal, amount) = pack(numbers, &mut buffer[..room]);
    print!("{refusal} {amount} ");
    for b in buffer {
        print!("{b} ");
    }
    println!();
}

fn show_list(list: &[u8]) {
    for i in (0..8).chain([1 << 32]) {
        let (refusal, number) = look_up(list, i);
        print!("{refusal} {number} ");
    }
    println!();
}

fn show_ones(section: &[u8]) {
    for z in (0..18).chain([u64::MAX]) {
        let (refusal, ones) = count_ones(section, z);
        print!("{refusal} {ones} ");
    }
    println!();
}

fn main() {
    let values = [0, 255, 256, 65_535, 65_536, 16_777_215, 16_777_216, u32::MAX];
    for v in values {
        show_pack(&[v], 64);
    }
    let few = &values[..6];
    for room in [64, 20, 19] {
        show_pack(&[], room);
    }
    for room in [64, 34, 33, 0] {
        show_pack(few, room);
    }
    show_pack(&values, 64);
    let mut list = [9u8; 64];
    pack(few, &mut list);
    for n in [64, 34].into_iter().chain(0..34) {
        show_list(&list[..n]);
    }
    for i in 0..34 {
        for b in [0, 1, 255] {
            let mut copy = list;
            copy[i] = b;
            show_list(&copy[..34]);
        }
    }
    for n in 0..18 {
        let s = [n, 0, 0, 0, 181, 3, 0];
        for end in 4..=7 {
            show_ones(&s[..end]);
        }
    }
    let large = [255, 255, 255, 255, 181, 3, 0];
    show_ones(&large);
    show_ones(&large[..3]);
}
