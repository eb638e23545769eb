//! Bit sections, byte sections and difference lists, as the paper tells them.

/// The most numbers of a list, and the greatest of them.
pub const LONGEST: usize = 1_398_100;
pub const GREATEST: u32 = 16_777_215;

/// What a call that gives an amount answers: (refusal, amount).
pub type Amount = (u32, u64);

fn count(n: usize) -> [u8; 4] {
    (n as u32).to_le_bytes()
}

fn byte_section(bytes: &[u8]) -> Vec<u8> {
    [&count(bytes.len())[..], bytes].concat()
}

pub fn bit_section(bits: &[bool]) -> Vec<u8> {
    let mut bytes = vec![0u8; bits.len().div_ceil(8)];
    for (i, &bit) in bits.iter().enumerate() {
        if bit {
            bytes[i / 8] |= 1 << (i % 8);
        }
    }
    [&count(bits.len())[..], &bytes].concat()
}

/// The bytes of a number, lowest first, as few as hold it, at least one.
fn bytes_of(v: u32) -> Vec<u8> {
    let mut bytes = v.to_le_bytes().to_vec();
    while bytes.len() > 1 && bytes.last() == Some(&0) {
        bytes.pop();
    }
    bytes
}

/// The five sections of a list.
pub fn packed(numbers: &[u32]) -> Vec<u8> {
    let cut: Vec<Vec<u8>> = numbers.iter().map(|&v| bytes_of(v)).collect();
    let place = |k: usize| cut.iter().filter(|b| b.len() > k).map(|b| b[k]).collect::<Vec<u8>>();
    let more = |k: usize| cut.iter().filter(|b| b.len() > k).map(|b| b.len() > k + 1).collect::<Vec<bool>>();
    [
        byte_section(&place(0)),
        bit_section(&more(0)),
        byte_section(&place(1)),
        bit_section(&more(1)),
        byte_section(&place(2)),
    ]
    .concat()
}

/// Pack: 1, 2, 6.
pub fn pack(numbers: &[u32], out: &mut [u8]) -> Amount {
    if numbers.len() > LONGEST {
        return (1, 0);
    }
    if numbers.iter().any(|&v| v > GREATEST) {
        return (2, 0);
    }
    let bytes = packed(numbers);
    if bytes.len() > out.len() {
        return (6, bytes.len() as u64);
    }
    out[..bytes.len()].copy_from_slice(&bytes);
    (0, bytes.len() as u64)
}

/// Takes a section's count and its body off the front, given the body's length for a count.
fn section<'a>(bytes: &mut &'a [u8], length: impl Fn(usize) -> usize) -> Option<(usize, &'a [u8])> {
    let (head, rest) = bytes.split_at_checked(4)?;
    let n = u32::from_le_bytes(head.try_into().unwrap()) as usize;
    let (body, rest) = rest.split_at_checked(length(n))?;
    *bytes = rest;
    Some((n, body))
}

fn take_bytes<'a>(bytes: &mut &'a [u8]) -> Option<&'a [u8]> {
    section(bytes, |n| n).map(|(_, body)| body)
}

pub fn take_bits(bytes: &mut &[u8]) -> Option<Vec<bool>> {
    let (n, body) = section(bytes, |n| n.div_ceil(8))?;
    let all: Vec<bool> = (0..body.len() * 8).map(|i| body[i / 8] >> (i % 8) & 1 == 1).collect();
    if all[n..].contains(&true) {
        return None;
    }
    Some(all[..n].to_vec())
}

/// Takes a list off the front: five sections that agree, in which no number has a needless byte.
pub fn take_list(bytes: &mut &[u8]) -> Option<Vec<u32>> {
    let first = take_bytes(bytes)?;
    let more = take_bits(bytes)?;
    let second = take_bytes(bytes)?;
    let again = take_bits(bytes)?;
    let third = take_bytes(bytes)?;
    if more.len() != first.len() || again.len() != second.len() {
        return None;
    }
    let mut thirds = third.iter();
    let mut tops = Vec::new();
    for (i, &long) in again.iter().enumerate() {
        let high = if long { *thirds.next().filter(|&&b| b > 0)? as u32 } else { 0 };
        let top = second[i] as u32 + 256 * high;
        if top == 0 {
            return None;
        }
        tops.push(top);
    }
    let mut tops = tops.into_iter();
    let mut list = Vec::new();
    for (i, &long) in more.iter().enumerate() {
        let top = if long { tops.next()? } else { 0 };
        list.push(first[i] as u32 + 256 * top);
    }
    if thirds.next().is_some() || tops.next().is_some() {
        return None;
    }
    Some(list)
}

/// The list that the bytes are, if it is short enough and nothing stands behind it.
pub fn unpacked(mut bytes: &[u8]) -> Option<Vec<u32>> {
    take_list(&mut bytes).filter(|list| bytes.is_empty() && list.len() <= LONGEST)
}

/// Look up an entry: 3, 8.
pub fn look_up(bytes: &[u8], entry: u64) -> (u32, u32) {
    match unpacked(bytes) {
        None => (3, 0),
        Some(list) => match usize::try_from(entry).ok().and_then(|i| list.get(i)) {
            None => (8, 0),
            Some(&v) => (0, v),
        },
    }
}

/// Count the ones before a place: 3.
pub fn count_ones(mut bytes: &[u8], place: u64) -> Amount {
    match take_bits(&mut bytes) {
        Some(bits) if bytes.is_empty() => {
            let n = (bits.len() as u64).min(place) as usize;
            (0, bits[..n].iter().filter(|&&b| b).count() as u64)
        }
        _ => (3, 0),
    }
}
