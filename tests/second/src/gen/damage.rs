//! Damaged texts, and texts of exactly 65,536 and 65,537 bytes (document 01, 'Run files', refusals 11 and 12).

use super::prng::Prng;
use super::valid;

/// Bytes that often stand where they should not.
const BYTES: [u8; 16] = *b"\t\n\r \0\x0b\x7f\x80\xff-+019,x";

/// Numbers that a field may not hold, or only just may, parted by commas; the first is no digit at all. Some are small
/// once cut to 8, 16, 32 or 64 bits.
const NUMBERS: &[u8] = b",0,00,01,-0,+0,+1,-1,-01,--1,-,+,1 , 1,1.0,1e1,0x1,1_0,255,256,257,0255,999,1000,65536,65537,\
    2147483647,2147483648,-2147483648,-2147483649,4294967296,4294967297,-4294967295,9999999999,18446744073709551615,\
    18446744073709551616,18446744073709551617,99999999999999999999999999999999999999999999,\xd9\xa1,\xef\xbc\x91";

/// Words that begin no line, or one that may not stand there, parted by commas.
const WORDS: &[u8] = b",threads,slots,put,take,step,Put,PUT,puts,ste,steps, step,step ,none,\xef\xbb\xbfthreads,step\0";

/// The parts between commas.
fn parts(joined: &'static [u8]) -> Vec<&'static [u8]> {
    joined.split(|&byte| byte == b',').collect()
}

/// The odd numbers, one by one.
pub fn numbers() -> Vec<&'static [u8]> {
    parts(NUMBERS)
}

/// A valid text with one to three damages; small ones mostly, so that every part of the text is hit.
pub fn draw(prng: &mut Prng) -> Vec<u8> {
    let mut text = match prng.below(12) {
        0 => Vec::new(),
        1..=3 => valid::draw(prng).text(),
        _ => {
            let (threads, slots, operations) = (prng.between(1, 16), prng.between(1, 4), prng.below(6));
            let steps = prng.below(20);
            valid::draw_sized(prng, threads, slots, operations, steps).text()
        }
    };
    for _ in 0..prng.pick(&[1, 1, 1, 2, 3]) {
        damage_once(prng, &mut text);
    }
    text
}

/// One damage of the text.
pub fn damage_once(prng: &mut Prng, text: &mut Vec<u8>) {
    let at = prng.below(text.len() + 1);
    let byte = prng.pick(&BYTES);
    match prng.below(20) {
        0 if at < text.len() => text[at] ^= 1 << prng.below(8),
        1 if at < text.len() => text[at] = byte,
        2 if at < text.len() => {
            text.remove(at);
        }
        3 => text.insert(at, byte),
        4 => text.truncate(at),
        5 => text.truncate(text.len().saturating_sub(1)),
        6 => text.push(byte),
        7 => double_a_tab(prng, text),
        8 => *text = carry_returns(text),
        9..=14 => change_line(prng, text, change_fields),
        15 => change_line(prng, text, |_, line| line.truncate(line.len() - 1)),
        16 => change_line(prng, text, |_, line| line.clear()),
        17 => change_line(prng, text, |_, line| line.push(b'\n')),
        18 => change_line(prng, text, |_, line| line.insert(line.len().saturating_sub(1), b'\r')),
        _ => move_lines(prng, text),
    }
}

/// One tab more next to one that is there.
fn double_a_tab(prng: &mut Prng, text: &mut Vec<u8>) {
    let tabs: Vec<usize> = (0..text.len()).filter(|&at| text[at] == b'\t').collect();
    if !tabs.is_empty() {
        text.insert(prng.pick(&tabs), b'\t');
    }
}

/// Every line ended by a carriage return and a line feed.
fn carry_returns(text: &[u8]) -> Vec<u8> {
    text.iter().flat_map(|&byte| if byte == b'\n' { vec![b'\r', b'\n'] } else { vec![byte] }).collect()
}

/// The lines of a text, each with its line feed.
fn lines_of(text: &[u8]) -> Vec<Vec<u8>> {
    text.split_inclusive(|&byte| byte == b'\n').map(<[u8]>::to_vec).collect()
}

/// Changes one line.
fn change_line(prng: &mut Prng, text: &mut Vec<u8>, change: impl Fn(&mut Prng, &mut Vec<u8>)) {
    let mut lines = lines_of(text);
    if !lines.is_empty() {
        let chosen = prng.below(lines.len());
        change(prng, &mut lines[chosen]);
        *text = lines.concat();
    }
}

/// Puts another number or word into a field, or adds or drops a field.
fn change_fields(prng: &mut Prng, line: &mut Vec<u8>) {
    line.pop();
    let mut fields: Vec<Vec<u8>> = line.split(|&byte| byte == b'\t').map(<[u8]>::to_vec).collect();
    let last = fields.len() - 1;
    match prng.below(9) {
        0 => fields[0] = prng.pick(&parts(WORDS)).to_vec(),
        1 => fields.push(prng.pick(&numbers()).to_vec()),
        2 => fields.truncate(last),
        3 => {
            let sign = prng.pick(b"0-+ 1");
            fields[last].insert(0, sign);
        }
        4 => {
            let (digit, many) = (prng.pick(b"019"), prng.between(11, 3_000));
            fields[last] = vec![digit; many];
        }
        _ => {
            let chosen = prng.between(last.min(1), last);
            fields[chosen] = prng.pick(&numbers()).to_vec();
        }
    }
    *line = fields.join(&b'\t');
    line.push(b'\n');
}

/// A line moved, doubled, or swapped with another.
fn move_lines(prng: &mut Prng, text: &mut Vec<u8>) {
    let mut lines = lines_of(text);
    if lines.is_empty() {
        return;
    }
    let (from, to) = (prng.below(lines.len()), prng.below(lines.len()));
    match prng.below(3) {
        0 => lines.insert(to, lines[from].clone()),
        1 => lines.swap(from, to),
        _ => {
            let moved = lines.remove(from);
            lines.insert(to, moved);
        }
    }
    *text = lines.concat();
}

/// A text of about the greatest size: good lines, then perhaps a damage that keeps the size.
pub fn draw_sized(prng: &mut Prng) -> Vec<u8> {
    let size = prng.pick(&[65_535, 65_536, 65_536, 65_536, 65_537, 65_537, 65_538, 70_000, 200_000]);
    let mut text = fill_to(prng, size);
    match prng.below(5) {
        0 => text[size - 1] = b'0',
        1 => text[prng.below(size)] = b'x',
        2 => text[0] = b'T',
        _ => {}
    }
    text
}

/// Exactly `size` bytes of good lines: too many steps, or too many operations, or one byte over and over.
pub fn fill_to(prng: &mut Prng, size: usize) -> Vec<u8> {
    if prng.once_in(6) {
        return vec![prng.pick(b"1x\n\t\0"); size];
    }
    let threads = prng.pick(&[1, 16, 16, 16, 17]);
    let mut text = format!("threads\t{threads}\nslots\t4\n").into_bytes();
    let word: &[u8] = prng.pick(&[b"step", b"take"]);
    while text.len() < size {
        let left = size - text.len();
        // Lines have 7 to 9 bytes; near the end their widths are chosen so that the last one ends exactly there.
        let width = if left < 60 { left.div_ceil(left.div_ceil(9)) } else { prng.pick(&[7, 7, 8]) };
        let number: &[u8] = match width {
            7 => b"0",
            8 => b"15",
            _ => b"100",
        };
        text.extend([word, b"\t", number, b"\n"].concat());
    }
    text
}
