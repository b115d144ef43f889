//! Each element of a block has what the single function gives for it.
use rivetgnome::*;

const PENTAGON: u64 = 0x0800_9fff_ffff_ffff;
const HEXAGON: u64 = 0x0800_1fff_ffff_ffff;

/// Cells of all resolutions under both kinds of base cell; every fifth number is damaged.
fn block(length: usize) -> Vec<u64> {
    let one = |at: usize| {
        let (cell, resolution) = ([HEXAGON, PENTAGON][at % 2], at as u32 % 16);
        let child = child_at(cell, (at * at) as u64 % children_count(cell, resolution).unwrap(), resolution).unwrap();
        if at % 5 == 0 {
            child ^ 1 << (at % 64)
        } else {
            child
        }
    };
    (0..length).map(one).collect()
}

fn each(single: impl Fn(u64) -> Result<u64, Refusal>, whole: impl Fn(&[u64], &mut [u64], &mut [u16]) -> Result<usize, Refusal>) {
    for length in [0, 1, 7, 8192, 8193] {
        let numbers = block(length);
        let (mut values, mut refusals) = (vec![7; length + 2], vec![9; length + 2]);
        if length > 0 {
            assert_eq!(whole(&numbers, &mut values[..length - 1], &mut refusals), Err(Refusal::NoRoom));
            assert_eq!(whole(&numbers, &mut values, &mut refusals[..length - 1]), Err(Refusal::NoRoom));
            assert_eq!(whole(&numbers, &mut [], &mut []), Err(Refusal::NoRoom));
        }
        assert!(values.iter().all(|&v| v == 7) && refusals.iter().all(|&r| r == 9));
        assert_eq!(whole(&numbers, &mut values, &mut refusals[..length]), Ok(length));
        for (at, &number) in numbers.iter().enumerate() {
            let refusal = single(number).err().map_or(0, Refusal::number);
            assert_eq!((values[at], refusals[at]), (single(number).unwrap_or(0), refusal), "{number:x}");
        }
        assert_eq!((&values[length..], &refusals[length..]), (&[7, 7][..], &[9, 9][..]));
    }
}

#[test]
fn checks() {
    each(|n| check(n).map(|()| n), check_block);
}

#[test]
fn parents() {
    for resolution in [0, 3, 15, 16, u32::MAX] {
        each(|n| parent(n, resolution), |n, v, r| parent_block(n, resolution, v, r));
    }
}

#[test]
fn positions() {
    for ancestor in [PENTAGON, HEXAGON, 0] {
        each(|n| child_position(ancestor, n), |n, v, r| child_position_block(ancestor, n, v, r));
    }
}
