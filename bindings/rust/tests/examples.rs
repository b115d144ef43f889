//! Document 01's twelve examples.
use rivetgnome::*;

const PENTAGON: u64 = 0x0800_9fff_ffff_ffff;

#[test]
fn checks() {
    assert_eq!(check(0), Err(Refusal::Mode));
    assert_eq!(check(0x080f_3fff_ffff_ffff), Ok(()));
    assert_eq!(check(0x080f_5fff_ffff_ffff), Err(Refusal::BaseCell));
    assert_eq!(check(0x0810_1fff_ffff_ffff), Err(Refusal::Digit));
    assert_eq!(check(0x0800_1fff_ffff_fffe), Err(Refusal::Unused));
    assert_eq!(check(0x0810_87ff_ffff_ffff), Err(Refusal::Deleted));
}

#[test]
fn counts() {
    for (n, count) in [(0, 1), (1, 6), (2, 41), (15, 3_956_301_258_286)] {
        assert_eq!(children_count(PENTAGON, n), Ok(count));
        assert_eq!(children(PENTAGON, n).unwrap().len() as u64, count);
    }
}

#[test]
fn listing() {
    let whole = [
        0x0810_83ff_ffff_ffff,
        0x0810_8bff_ffff_ffff,
        0x0810_8fff_ffff_ffff,
        0x0810_93ff_ffff_ffff,
        0x0810_97ff_ffff_ffff,
        0x0810_9bff_ffff_ffff,
    ];
    let mut cells = [7; 8];
    assert_eq!(list_into(PENTAGON, 1, &mut cells[..5]), Err(Refusal::NoRoom));
    assert_eq!(list_into(PENTAGON, 1, &mut []), Err(Refusal::NoRoom));
    assert_eq!(cells, [7; 8]);
    assert_eq!(list_into(PENTAGON, 1, &mut cells), Ok(6));
    assert_eq!(cells[..6], whole);
    assert_eq!(cells[6..], [7, 7]);
    assert!(children(PENTAGON, 1).unwrap().eq(whole));
}

#[test]
fn steps() {
    let (three, five) = (0x0810_8fff_ffff_ffff, 0x0810_97ff_ffff_ffff);
    let to = |cell, turn| Ok(Step::Inside { cell, turn });
    assert_eq!(step(three, Direction::IK), to(five, 1));
    assert_eq!(step(five, Direction::JK), to(three, 5));
    assert_eq!(step(0x0810_83ff_ffff_ffff, Direction::K), Err(Refusal::DeletedWay));
    let cell = 0x0810_13ff_ffff_ffff;
    assert_eq!(step(cell, Direction::I), Ok(Step::Leaves(Direction::I)));
    assert_eq!(step(cell, Direction::JK), to(0x0810_03ff_ffff_ffff, 0));
}

#[test]
fn reading_back() {
    assert_eq!(read_back(1, CoordIjk::new(0, 0, 2)), Err(Refusal::NoString));
}
