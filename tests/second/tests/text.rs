//! Reader and writer: round trips, room, and the details of refusals 11 and 12.

use second::gen::{make_case, make_valid};
use second::listing;
use second::rules::Refusal;
use second::runfile::{parse, read, write, Header, Lists, Room};

const UNTOUCHED: u8 = 77;

/// Reads with room for one entry more than needed, and tests that the entry after the last is untouched.
fn read_back(text: &[u8], operations: usize, steps: usize) -> Result<Lists, Refusal> {
    let mut thread = vec![UNTOUCHED; operations + 1];
    let mut kind = vec![UNTOUCHED; operations + 1];
    let mut sample = vec![i32::from(UNTOUCHED); operations + 1];
    let mut schedule = vec![UNTOUCHED; steps + 1];
    let mut room = Room { thread: &mut thread, kind: &mut kind, sample: &mut sample, schedule: &mut schedule };
    let header = read(text, &mut room)?;
    assert_eq!((header.operations, header.steps), (operations, steps));
    let ends = [thread.pop(), kind.pop(), sample.pop().map(|end| end as u8), schedule.pop()];
    assert_eq!(ends, [Some(UNTOUCHED); 4]);
    Ok(Lists { threads: header.threads, slots: header.slots, thread, kind, sample, schedule })
}

#[test]
fn reading_what_was_written_gives_the_same_lists() {
    for number in 0..500 {
        let lists = make_valid(21, number);
        let mut text = vec![0; 65_536];
        let length = write(&lists.inputs(), &mut text).unwrap();
        assert!(text[length..].iter().all(|&byte| byte == 0));
        assert_eq!(read_back(&text[..length], lists.kind.len(), lists.schedule.len()).as_ref(), Ok(&lists));
        assert_eq!(write(&lists.inputs(), &mut vec![0; length - 1]), Err(Refusal { number: 9, detail: 0 }));
        assert_eq!(write(&lists.inputs(), &mut vec![0; length]), Ok(length));
    }
}

#[test]
fn writing_what_was_read_gives_the_same_bytes() {
    let mut passed = 0;
    for number in 0..3_000 {
        let text = make_case(22, number).text;
        let Ok(lists) = parse(&text) else { continue };
        let mut written = vec![0; 65_536];
        if let Ok(length) = write(&lists.inputs(), &mut written) {
            assert_eq!(written[..length], text);
            passed += 1;
        }
    }
    assert!(passed > 1_000);
}

#[test]
fn each_short_list_of_the_reader_is_refusal_9() {
    let text = b"threads\t1\nslots\t1\nput\t0\t-5\ntake\t0\nstep\t0\nstep\t0\nstep\t0\n";
    for short in 0..5 {
        let room = |list: usize, needed: usize| needed - usize::from(list == short);
        let (mut thread, mut kind) = (vec![0; room(0, 2)], vec![0; room(1, 2)]);
        let (mut sample, mut schedule) = (vec![0; room(2, 2)], vec![0; room(3, 3)]);
        let mut room = Room { thread: &mut thread, kind: &mut kind, sample: &mut sample, schedule: &mut schedule };
        let expected = match short {
            4 => Ok(Header { threads: 1, slots: 1, operations: 2, steps: 3 }),
            _ => Err(Refusal { number: 9, detail: 0 }),
        };
        assert_eq!(read(text, &mut room), expected);
    }
}

/// Texts with the number and detail of their refusal.
#[test]
fn refused_texts() {
    let cases: [(&str, &str); 16] = [
        ("", "11\t1"),
        ("\n", "11\t1"),
        ("threads\t1\n", "11\t2"),
        ("threads\t1", "11\t1"),
        ("slots\t1\nthreads\t1\n", "11\t1"),
        ("threads\t0\nslots\t1\nstep\t0\ntake\t0\n", "11\t4"),
        ("threads\t1\nslots\t1\n\n", "11\t3"),
        ("threads\t1\nslots\t1\nstep\t0\r\n", "11\t3"),
        ("threads\t1\nslots\t1\nstep\t0\t\n", "11\t3"),
        ("threads\t1\nslots\t1\nstep\t00\n", "11\t3"),
        ("threads\t1\nslots\t1\nput\t0\t-0\n", "11\t3"),
        ("threads\t1\nslots\t1\ntake\t0\t0\n", "11\t3"),
        ("threads\t255\nslots\t255\n", "1\t0"),
        ("threads\t1\nslots\t255\n", "2\t0"),
        ("threads\t1\nslots\t1\ntake\t0\ntake\t255\n", "5\t1"),
        ("threads\t1\nslots\t1\nstep\t0\nstep\t255\n", "8\t1"),
    ];
    for (text, refusal) in cases {
        let printed = String::from_utf8(listing::answer(text.as_bytes())).unwrap();
        assert_eq!(printed, format!("refused\t{refusal}\n"), "{text:?}");
    }
    assert_eq!(listing::answer(&[b'x'; 65_536]), b"refused\t11\t1\n");
    assert_eq!(listing::answer(&[b'x'; 65_537]), b"refused\t12\t0\n");
}
