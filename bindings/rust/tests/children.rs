//! The iterator gives what the cursor gives, and what child_at gives, at every distance and under every kind of cell.
use rivetgnome::*;

fn by_cursor(cell: u64, resolution: u32) -> impl Iterator<Item = u64> {
    let mut cursor = Cursor::new(cell, resolution).unwrap();
    std::iter::from_fn(move || cursor.next_child().unwrap())
}

/// Cells of each resolution: a hexagon, a pentagon, and a hexagon of the pentagon's base cell.
fn cells(resolution: u32) -> [u64; 3] {
    let of = |base: u64, position| child_at(0x0800_1fff_ffff_ffff | base << 45, position, resolution).unwrap();
    let last = |base: u64| children_count(0x0800_1fff_ffff_ffff | base << 45, resolution).unwrap() - 1;
    [of(20, last(20) / 3), of(4, 0), of(117, last(117))]
}

#[test]
fn equals_the_cursor() {
    for own in 0..=15 {
        for resolution in own..=15.min(own + 6) {
            for cell in cells(own) {
                let all = children(cell, resolution).unwrap();
                let count = children_count(cell, resolution).unwrap();
                assert_eq!(all.len() as u64, count);
                let mut given = 0;
                assert!(all.zip(by_cursor(cell, resolution)).all(|(a, b)| {
                    given += 1;
                    a == b
                }));
                assert_eq!(given, count);
                assert_eq!(by_cursor(cell, resolution).count() as u64, count);
            }
        }
    }
}

#[test]
fn ends_and_stays_ended() {
    let mut all = children(0x0800_9fff_ffff_ffff, 2).unwrap();
    assert_eq!(all.by_ref().count(), 41);
    assert_eq!((all.next(), all.next(), all.len()), (None, None, 0));
}

#[test]
fn begins_at_once_where_there_are_many() {
    for cell in cells(0) {
        let first = children(cell, 15).unwrap().take(100_000);
        assert!(first.eq(by_cursor(cell, 15).take(100_000)));
        for (position, child) in children(cell, 15).unwrap().enumerate().step_by(999).take(99) {
            assert_eq!(child_at(cell, position as u64, 15), Ok(child));
            assert_eq!(child_position(cell, child), Ok(position as u64));
            assert_eq!(parent(child, 0), Ok(cell));
        }
    }
}

#[test]
fn refuses_what_the_count_refuses() {
    for (cell, resolution) in [(0, 1), (0, 16), (0x0810_83ff_ffff_ffff, 0), (0x0810_83ff_ffff_ffff, 16)] {
        let refusal = children_count(cell, resolution).unwrap_err();
        assert_eq!(children(cell, resolution).unwrap_err(), refusal);
        assert_eq!(Cursor::new(cell, resolution).unwrap_err(), refusal);
    }
}

#[test]
fn a_made_up_cursor_is_refused() {
    let fresh = Cursor::new(0x0800_9fff_ffff_ffff, 3).unwrap();
    for wrong in [
        Cursor { own: 1 << 32, ..fresh },
        Cursor { target: 16, ..fresh },
        Cursor { number: 0, ..fresh },
        Cursor { skip: -2, ..fresh },
        Cursor {
            left: fresh.left - 1,
            ..fresh
        },
    ] {
        let mut cursor = wrong;
        assert_eq!(cursor.next_child(), Err(Refusal::Position));
        assert_eq!(cursor, wrong);
    }
}
