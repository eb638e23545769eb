//! The coding of the proved library against the second program: numbers, answers and whole buffers.
mod common;

use common::{count_ones, look_up, pack, Random};
use second::coding;

/// Packs with both, into the same room, and gives the buffer back.
fn both(numbers: &[u32], room: usize) -> Vec<u8> {
    let mut ours = vec![7; room];
    let mut theirs = vec![7; room];
    assert_eq!(pack(numbers, &mut ours), coding::pack(numbers, &mut theirs));
    assert_eq!(ours, theirs);
    ours
}

#[test]
fn the_longest_list_and_one_more() {
    let mut random = Random(1);
    let mut numbers: Vec<u32> = (0..coding::LONGEST).map(|_| random.number()).collect();
    let need = coding::packed(&numbers).len();
    both(&numbers, need - 1);
    let list = both(&numbers, need + 3);
    for i in [0, 1, 511, 512, 699_050, coding::LONGEST as u64 - 1, coding::LONGEST as u64, 1 << 40] {
        assert_eq!(look_up(&list[..need], i), coding::look_up(&list[..need], i));
    }
    numbers.push(0);
    both(&numbers, need + 8);
    let too_long = coding::packed(&numbers);
    assert_eq!(look_up(&too_long, 0), (3, 0));
}

#[test]
fn short_lists_and_damaged_ones() {
    let mut random = Random(2);
    for _ in 0..3_000 {
        let numbers: Vec<u32> = (0..random.below(40)).map(|_| random.number()).collect();
        let need = coding::packed(&numbers).len();
        let room = need + random.below(12) as usize;
        both(&numbers, room.saturating_sub(6));
        let mut list = coding::packed(&numbers);
        for _ in 0..random.below(3) {
            let at = random.below(list.len() as u64) as usize;
            list[at] = [0, 1, 255, random.next() as u8][random.below(4) as usize];
        }
        match random.below(8) {
            0 => list.truncate(random.below(need as u64) as usize),
            1 => list.push(random.next() as u8 & 1),
            _ => {}
        }
        for _ in 0..4 {
            let i = random.below(numbers.len() as u64 + 2);
            assert_eq!(look_up(&list, i), coding::look_up(&list, i), "{list:?} at {i}");
        }
    }
}

#[test]
fn ones_of_sections_and_damaged_ones() {
    let mut random = Random(3);
    for _ in 0..20_000 {
        let bits = random.below(700) as u32;
        let mut section = bits.to_le_bytes().to_vec();
        section.extend((0..bits.div_ceil(8)).map(|_| random.next() as u8));
        if bits % 8 > 0 && random.below(4) > 0 {
            *section.last_mut().unwrap() &= (1 << (bits % 8)) - 1;
        }
        if random.below(10) == 0 {
            let at = random.below(4) as usize;
            section[at] = section[at].wrapping_add(random.below(3) as u8);
        }
        let place = [random.below(bits as u64 + 2), u64::MAX][(random.below(20) == 0) as usize];
        assert_eq!(count_ones(&section, place), coding::count_ones(&section, place), "{section:?} at {place}");
    }
}
