//! Name lists, sound ones and wrong ones, for refusals 61 and 62. Blanks are here spaces and bytes 13: at the end of a
//! line they are no part of it.

use reference::limits::MAX_LIST_LINES;
use reference::names;

use crate::Random;

/// The two lists, the site's and the built-in one, wrong in so many of a hundred cases.
pub fn both(random: &mut Random, symbols: usize, damaged_percent: usize) -> (Vec<u8>, Vec<u8>) {
    let mut site = list(random, symbols, b's');
    let mut built_in = list(random, symbols, b'b');
    if random.percent(damaged_percent) {
        let one = if random.percent(50) { &mut site } else { &mut built_in };
        damage(random, one, symbols);
    }
    (site, built_in)
}

/// A list as an editor on Windows saves it: bytes 13 and 10 end its lines. Its names stay the same.
pub fn saved_on_windows(list: &[u8]) -> Vec<u8> {
    list.split(|&byte| byte == 10).collect::<Vec<&[u8]>>().join(&b"\r\n"[..])
}

/// The two lists, saved by an editor on Windows and by one that leaves blanks.
pub fn saved_in_two_ways(random: &mut Random, site: &[u8], built_in: &[u8]) -> [(Vec<u8>, Vec<u8>); 2] {
    let windows = (saved_on_windows(site), saved_on_windows(built_in));
    [windows, (with_blanks(random, site), with_blanks(random, built_in))]
}

/// A list with blanks in any mix at the ends of its lines. Its names stay the same, and its lines as many.
fn with_blanks(random: &mut Random, list: &[u8]) -> Vec<u8> {
    let blank_behind = |line: &[u8]| {
        let text = line.strip_suffix(b"\n").unwrap_or(line);
        [text, &blanks(random), &line[text.len()..]].concat()
    };
    list.split_inclusive(|&byte| byte == 10).flat_map(blank_behind).collect()
}

/// None, a few, or more than a name has bytes.
fn blanks(random: &mut Random) -> Vec<u8> {
    let count = random.pick(&[0, 1, 1, 2, 3, 20]);
    (0..count).map(|_| random.pick(b" \r")).collect()
}

/// A list, often empty, with names of its own for some symbols, with or without a last byte 10.
fn list(random: &mut Random, symbols: usize, first: u8) -> Vec<u8> {
    if random.percent(40) {
        return Vec::new();
    }
    let lines = random.between(0, (symbols + 3).min(MAX_LIST_LINES));
    let named = random.pick(&[20, 60, 100]);
    let names: Vec<Vec<u8>> = (0..lines)
        .map(|line| if random.percent(named) { name(random, first, line) } else { Vec::new() })
        .collect();
    let mut list = names.join(&10);
    if lines > 0 && random.percent(70) {
        list.push(10);
    }
    saved(random, list)
}

/// A list as some editor saves it: two of three leave it as it is.
fn saved(random: &mut Random, list: Vec<u8>) -> Vec<u8> {
    match random.below(6) {
        0 => saved_on_windows(&list),
        1 => {
            let mut list = with_blanks(random, &list);
            if names::lines(&list).len() < MAX_LIST_LINES {
                // Behind a last byte 10 these are one line more.
                list.extend(blanks(random));
            }
            list
        }
        _ => list,
    }
}

/// A name that no other line of the same list has: letters, then the line's number; 16 bytes at most.
fn name(random: &mut Random, first: u8, line: usize) -> Vec<u8> {
    let number = format!("x{line}");
    let letters = random.pick(&[1, 2, 3, 16 - number.len()]);
    let mut name = vec![first];
    name.resize(letters, b'a' + random.below(26) as u8);
    name.extend(number.as_bytes());
    name
}

/// Takes a list to a limit or past it, or puts a fault in; the change may turn out harmless.
fn damage(random: &mut Random, list: &mut Vec<u8>, symbols: usize) {
    match random.below(20) {
        0 => *list = vec![10; MAX_LIST_LINES],
        1 => *list = vec![10; MAX_LIST_LINES + 1],
        2 => *list = [vec![10; MAX_LIST_LINES], vec![random.pick(b"z \r")]].concat(),
        3 => first_line(random, list, b"thisnamehas16byt"),
        4 => first_line(random, list, b"thisnamehas17byte"),
        5 => first_line(random, list, b"cr\rlf"),
        6 => first_line(random, list, b"of spaces"),
        7 => first_line(random, list, b" front"),
        8 => first_line(random, list, b"tab\t"),
        9 | 10 => *list = [b"t\n", &list[..], b"\nt", &blanks(random), b"\n"].concat(),
        11 | 12 => {
            let number = random.below(symbols + 1);
            *list = [format!("s{number}").as_bytes(), &blanks(random), b"\n"].concat();
        }
        13 | 14 => *list = [b"same\nsame", &blanks(random)[..], &vec![10; random.below(4)]].concat(),
        _ => change_a_byte(random, list),
    }
}

/// Puts a line in front, with blanks at its end.
fn first_line(random: &mut Random, list: &mut Vec<u8>, line: &[u8]) {
    list.splice(0..0, [line, &blanks(random), b"\n"].concat()).for_each(drop);
}

/// Puts a byte in, takes one out, or changes one.
fn change_a_byte(random: &mut Random, list: &mut Vec<u8>) {
    let byte = random.pick(&[
        b'a', b'0', b'9', b'z', b'A', b'Z', b'_', b' ', 9, 10, 10, 13, b'`', b'{', b'/', b':', 0, 255,
    ]);
    let at = random.below(list.len() + 1);
    match random.below(3) {
        0 if at < list.len() => list[at] = byte,
        1 if at < list.len() => drop(list.remove(at)),
        _ => list.insert(at, byte),
    }
}
