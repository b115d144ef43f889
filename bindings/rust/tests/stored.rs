//! The stored requests and answers of the line program, asked through this crate.
use rivetgnome::*;
use std::collections::BTreeMap;
use std::fmt::Display;

fn hex(word: &str) -> u64 {
    u64::from_str_radix(word, 16).unwrap()
}

fn whole<T: std::str::FromStr>(word: &str) -> T {
    word.parse().ok().unwrap_or_else(|| panic!("{word}"))
}

fn point(words: &[&str]) -> CoordIjk {
    CoordIjk::new(whole(words[0]), whole(words[1]), whole(words[2]))
}

fn told(p: CoordIjk) -> String {
    format!("{} {} {}", p.i, p.j, p.k)
}

fn cell(number: u64) -> String {
    format!("{number:016x}")
}

fn decimal(number: impl Display) -> String {
    number.to_string()
}

fn cells(numbers: &[u64]) -> String {
    numbers.iter().copied().map(cell).collect::<Vec<_>>().join(" ")
}

fn words(c: &Cursor) -> String {
    format!("{} {} {:016x} {} {}", c.own, c.target, c.number, c.skip, c.left)
}

fn said(answer: Result<String, Refusal>) -> String {
    answer.unwrap_or_else(|refusal| format!("refusal {}", refusal.number()))
}

fn room(word: &str, fill: impl Fn(&mut [u64]) -> Result<usize, Refusal>) -> String {
    let mut buffer = vec![0xeeee_eeee_eeee_eeee; whole(word)];
    let count = said(fill(&mut buffer).map(decimal));
    format!("{count} : {}", cells(&buffer))
}

fn list(n: u64, target: u32) -> Result<String, Refusal> {
    let mut buffer = [0; 8_192];
    let count = list_into(n, target, &mut buffer)?;
    Ok(cells(&buffer[..count]))
}

fn next(w: &[&str]) -> String {
    let mut cursor = Cursor {
        own: whole(w[0]),
        target: whole(w[1]),
        number: hex(w[2]),
        skip: whole(w[3]),
        left: whole(w[4]),
    };
    let child = cursor.next_child().map(|child| child.map_or("Done".into(), cell));
    format!("{} : {}", said(child), words(&cursor))
}

fn direction(word: &str) -> Result<Direction, Refusal> {
    Direction::try_from(whole::<u32>(word))
}

fn stepped(n: u64, way: u32) -> Result<String, Refusal> {
    Ok(match step(n, way)? {
        Step::Inside { cell, turn } => format!("Inside {cell:016x} {turn}"),
        Step::Leaves(way) => format!("Leaves {}", way as u32),
    })
}

fn walked(n: u64, way: u32) -> Result<String, Refusal> {
    walk(n, way).map(|w| format!("{} {}", cell(w.number), w.carry.map_or(0, u32::from)))
}

/// The answer to a request of design/requests.md.
fn answer(request: &str) -> String {
    let w: Vec<&str> = request.split(' ').collect();
    let p = |at: usize| point(&w[at..]);
    said(match (w[0], w.get(1).copied().unwrap_or(""), w.len()) {
        ("check", ..) => check(hex(w[1])).map(|()| "ok".into()),
        ("count", ..) => children_count(hex(w[1]), whole(w[2])).map(decimal),
        ("list", _, 3) => list(hex(w[1]), whole(w[2])),
        ("list", ..) => return room(w[3], |buffer| list_into(hex(w[1]), whole(w[2]), buffer)),
        ("short", ..) => return room(w[2], |buffer| list_short_into(hex(w[1]), buffer)),
        ("childat", ..) => child_at(hex(w[1]), whole(w[3]), whole(w[2])).map(cell),
        ("position", ..) => child_position(hex(w[1]), hex(w[2])).map(decimal),
        ("ancestor", ..) => parent(hex(w[1]), whole(w[2])).map(cell),
        ("cursor", ..) => Cursor::new(hex(w[1]), whole(w[2])).map(|c| words(&c)),
        ("next", ..) => return next(&w[1..]),
        ("turn", "ccw", _) => rotate60::<true>(hex(w[2]), whole(w[3])).map(cell),
        ("turn", ..) => rotate60::<false>(hex(w[2]), whole(w[3])).map(cell),
        ("pentturn", "ccw", _) => pentagon_rotate60::<true>(hex(w[2])).map(cell),
        ("pentturn", ..) => pentagon_rotate60::<false>(hex(w[2])).map(cell),
        ("unit", ..) => direction(w[1]).map(|d| told(d.coordinate())),
        ("drot", "ccw", _) => direction(w[2])
            .and_then(|d| d.rotate60::<true>(whole(w[3])))
            .map(|d| decimal(d as u8)),
        ("drot", ..) => direction(w[2])
            .and_then(|d| d.rotate60::<false>(whole(w[3])))
            .map(|d| decimal(d as u8)),
        ("normalise", ..) => p(1).normalize().map(told),
        ("neighbour", ..) => p(1).neighbor(whole::<u32>(w[4])).map(told),
        ("down7", "ccw", _) => p(2).down_aperture7::<true>().map(told),
        ("down7", ..) => p(2).down_aperture7::<false>().map(told),
        ("down3", "ccw", _) => p(2).down_aperture3::<true>().map(told),
        ("down3", ..) => p(2).down_aperture3::<false>().map(told),
        ("up7", "ccw", _) => p(2).up_aperture7::<true>().map(told),
        ("up7", ..) => p(2).up_aperture7::<false>().map(told),
        ("turnpoint", "ccw", _) => p(2).rotate60::<true>().map(told),
        ("turnpoint", ..) => p(2).rotate60::<false>().map(told),
        ("ij", ..) => CoordIj::try_from(p(1)).map(|p| format!("{} {}", p.i, p.j)),
        ("fromij", ..) => CoordIjk::try_from(CoordIj::new(whole(w[1]), whole(w[2]))).map(told),
        ("same", ..) => p(1).same_point(p(4)).map(|yes| if yes { "yes" } else { "no" }.into()),
        ("distance", ..) => p(1).distance(p(4)).map(decimal),
        ("dirof", ..) => Direction::try_from(p(1)).map(|d| decimal(d as u8)),
        ("centre", ..) => center(hex(w[1])).map(told),
        ("readback", ..) => read_back(whole(w[1]), p(2)).map(cell),
        ("walk", ..) => walked(hex(w[1]), whole(w[2])),
        ("step", ..) => stepped(hex(w[1]), whole(w[2])),
        _ => panic!("no request: {request}"),
    })
}

/// Answers of each entry, printed in h3o's documentation or worked out by hand from document 01.
const TOLD: &str = "\
check 80f3fffffffffff = ok
count 8a1fb46622dffff 15 = 16807
list 8009fffffffffff 1 = 081083ffffffffff 08108bffffffffff 08108fffffffffff 081093ffffffffff 081097ffffffffff 08109bffffffffff
list 8009fffffffffff 1 2 = refusal 10 : eeeeeeeeeeeeeeee eeeeeeeeeeeeeeee
short 8009fffffffffff 7 = 6 : 081083ffffffffff 08108bffffffffff 08108fffffffffff 081093ffffffffff 081097ffffffffff 08109bffffffffff eeeeeeeeeeeeeeee
short 8009fffffffffff 0 = refusal 10 : \n\
childat 881fb46623fffff 10 24 = 08a1fb46622dffff
position 881fb46623fffff 8a1fb46622dffff = 24
ancestor 8a1fb46622dffff 5 = 0851fb467fffffff
cursor 8009fffffffffff 1 = 0 1 081083ffffffffff 1 6
next 0 1 081083ffffffffff 1 6 = 081083ffffffffff : 0 1 08108bffffffffff 0 5
next 0 1 81083ffffffffff 1 7 = refusal 11 : 0 1 081083ffffffffff 1 7
turn ccw 81013ffffffffff 1 = 08101bffffffffff
turn cw 81013ffffffffff 1 = 081017ffffffffff
pentturn ccw 8108fffffffffff = 081097ffffffffff
pentturn cw 81097ffffffffff = 08108fffffffffff
unit 6 = 1 1 0
drot ccw 1 1 = 5
drot cw 1 1 = 3
normalise 1 2 3 = 0 1 2
neighbour 0 0 0 3 = 0 1 1
down7 ccw 1 0 0 = 3 0 1
down7 cw 1 0 0 = 3 1 0
down3 ccw 1 0 0 = 2 0 1
down3 cw 1 0 0 = 2 1 0
up7 ccw 3 0 1 = 1 0 0
up7 cw 3 1 0 = 1 0 0
turnpoint ccw 1 0 0 = 1 1 0
turnpoint cw 1 0 0 = 1 0 1
ij 1 2 3 = -2 -1
fromij -2 -1 = 0 1 2
same 1 2 3 0 1 2 = yes
distance 0 0 0 3 0 1 = 3
dirof 2 1 2 = 5
centre 81013ffffffffff = 1 0 0
readback 1 1 0 0 = 081013ffffffffff
walk 81013ffffffffff 3 = 081003ffffffffff 0
step 8108fffffffffff 5 = Inside 081097ffffffffff 1
step 81013ffffffffff 4 = Leaves 4
";

#[test]
fn of_each_entry() {
    for line in TOLD.lines() {
        let (request, wanted) = line.split_once(" = ").unwrap();
        assert_eq!(answer(request), wanted, "{request}");
    }
}

#[test]
fn stored() {
    let read = |name: &str| {
        let path = format!("{}/../../crates/hexline/{name}", env!("CARGO_MANIFEST_DIR"));
        std::fs::read(&path).unwrap_or_else(|e| panic!("{path}: {e}"))
    };
    let (requests, answers) = (read("stdin"), read("stdout"));
    let lines = |text: &'static [u8]| text.strip_suffix(b"\n").unwrap_or(text).split(|&byte| byte == b'\n');
    let (requests, answers) = (lines(requests.leak()), lines(answers.leak()));
    let mut seen = BTreeMap::new();
    let mut count = 0;
    for (request, wanted) in requests.zip(answers) {
        // what only the line program can refuse
        if wanted == b"input" {
            continue;
        }
        let (request, wanted) = (std::str::from_utf8(request).unwrap(), std::str::from_utf8(wanted).unwrap());
        assert_eq!(answer(request), wanted, "{request}");
        *seen.entry(request.split(' ').next().unwrap()).or_insert(0) += 1;
        count += 1;
    }
    println!("{count} stored answers: {seen:?}");
    assert!(count > 3_000);
    // every request of the line program
    assert_eq!(seen.len(), 28);
}
