//! The archive record of docs/record.md: composing one from lists, and reading one back.

use crate::rankings::{Lists, other_side};

/// The words of the record of `lists`, with turns and pairs (a stream and a lane, streams rising).
pub fn compose(lists: &Lists, turns: &[u8], pairs: &[(u8, u8)]) -> Vec<u32> {
    let mut words = vec![1 << 28 | (lists.streams as u32) << 8 | lists.lanes as u32];
    for (owner, list) in lists.of.iter().enumerate() {
        let first = other_side(lists.streams, lists.lanes, owner).start;
        for (place, &q) in list.iter().enumerate() {
            words.push(2 << 28 | (owner as u32) << 16 | (place as u32) << 8 | (q - first) as u32);
        }
    }
    words.extend(turns.iter().map(|&party| 3 << 28 | u32::from(party)));
    words.extend(pairs.iter().map(|&(stream, lane)| 4 << 28 | u32::from(stream) << 8 | u32::from(lane)));
    words.push(5 << 28 | words.len() as u32);
    words
}

/// The lists of a record, or nothing where the words are no record.
pub fn read(words: &[u32]) -> Option<Lists> {
    if words.len() < 2 || words.len() > 8192 {
        return None;
    }
    let (head, last) = (words[0], words[words.len() - 1]);
    let (streams, lanes) = ((head >> 8 & 255) as usize, (head & 255) as usize);
    let sized = (1..=16).contains(&streams) && (1..=16).contains(&lanes);
    if head >> 16 != 1 << 12 || !sized || last != 5 << 28 | (words.len() - 1) as u32 {
        return None;
    }
    let mut lists = Lists::nobody(streams, lanes);
    let (mut kind, mut owner, mut turns) = (2, 0, 0);
    let mut pairs: Vec<(u32, u32)> = Vec::new();
    for &word in &words[1..words.len() - 1] {
        if word >> 28 < kind {
            return None;
        }
        kind = word >> 28;
        let (high, middle, low) = (word >> 16 & 255, word >> 8 & 255, word & 255);
        match kind {
            2 => {
                let p = high as usize;
                if word >> 24 & 15 != 0 || p >= lists.parties() || p < owner {
                    return None;
                }
                owner = p;
                let side = other_side(streams, lanes, p);
                let q = side.start + low as usize;
                if !side.contains(&q) || middle as usize != lists.of[p].len() || lists.of[p].contains(&q) {
                    return None;
                }
                lists.of[p].push(q);
            }
            3 => {
                turns += 1;
                if word >> 8 & 0xF_FFFF != 0 || low as usize >= lists.parties() || turns > 7600 {
                    return None;
                }
            }
            4 => {
                let rises = pairs.last().is_none_or(|&(stream, _)| stream < middle);
                let named = high != 0 || word >> 24 & 15 != 0;
                let within = (middle as usize) < streams && (low as usize) < lanes;
                if named || !within || !rises || pairs.iter().any(|&(_, lane)| lane == low) {
                    return None;
                }
                pairs.push((middle, low));
            }
            _ => return None,
        }
    }
    Some(lists)
}

#[cfg(test)]
mod tests {
    use super::*;

    #[test]
    fn worked_records() {
        let square = Lists { streams: 2, lanes: 2, of: vec![vec![2, 3], vec![3, 2], vec![1, 0], vec![0, 1]] };
        let words = [
            0x10000202, 0x20000000, 0x20000101, 0x20010001, 0x20010100, 0x20020001, 0x20020100, 0x20030000, 0x20030101,
            0x40000000, 0x40000101, 0x5000000B,
        ];
        assert_eq!(compose(&square, &[], &[(0, 0), (1, 1)]), words);
        assert_eq!(read(&words), Some(square));
        let nobody = Lists::nobody(1, 1);
        assert_eq!(compose(&nobody, &[], &[]), [0x10000101, 0x50000001]);
        assert_eq!(read(&[0x10000101, 0x50000001]), Some(nobody));
        for (at, word) in [(2, 0x20000201), (0, 0x10001101), (11, 0x5000000A), (10, 0x40000001), (10, 0x40000100)] {
            let mut other = words;
            other[at] = word;
            assert_eq!(read(&other), None, "{word:x}");
        }
    }
}
