//! A print through windows is the print: whatever the windows' lengths, and whatever becomes of the reader and the writer around it.

use std::io::{self, ErrorKind, Read, Write};

use tulbazhik::{Error, Printing, Text, numbers, print, read};

const SOURCE: &[u8] = b"(rule 1 (lower (iadd x y @ (imm 0xff))) (add x -12)) () a @ b\n(decl f (T U) R)";

#[test]
fn windows_of_every_length_give_the_text() {
    let table = read(SOURCE).expect("no refusal");
    for width in [0, 20, 40, 100, u32::MAX] {
        let Text { bytes: text, looked } = print(&table, width).expect("no refusal");
        for size in 1..text.len() + 2 {
            let (mut printing, mut window) = (Printing::new(&table, width), vec![b'#'; size]);
            let mut joined: Vec<u8> = Vec::new();
            assert_eq!(printing.looked(), None, "the count comes with the end");
            while let Some(n) = printing.fill(&mut window).expect("no refusal") {
                assert_eq!(
                    n,
                    size.min(text.len() - joined.len()),
                    "all that the window holds or that is left"
                );
                joined.extend(&window[..n]);
                let (state, empty) = (printing.state(), printing.fill(&mut []));
                let end = joined.len() == text.len();
                assert_eq!(
                    empty,
                    Ok(if end { None } else { Some(0) }),
                    "no room, width {width}, windows of {size}"
                );
                assert_eq!(printing.state(), state, "no room moves nothing");
            }
            assert_eq!(joined, text, "width {width}, windows of {size}");
            assert_eq!(printing.looked(), Some(looked), "width {width}, windows of {size}");
            assert_eq!(printing.fill(&mut window), Ok(None), "the end stays");
            let mut again = Printing::resume(&table, width, printing.state());
            assert_eq!((again.looked(), again.fill(&mut []), again.looked()), (None, Ok(None), Some(looked)));
        }
    }
}

#[test]
fn the_first_call_refuses_and_changes_nothing() {
    let table = read(SOURCE).expect("no refusal");
    let (cut, mut window) = (&table[..table.len() - 1], [b'#'; 4]);
    let refusal = print(cut, 100).expect_err("a record is cut short");
    let mut printing = Printing::new(cut, 100);
    for _ in 0..2 {
        assert_eq!(printing.fill(&mut window), Err(refusal));
        assert_eq!(printing.fill(&mut []), Err(refusal), "without room too");
        assert_eq!((window, printing.state()), ([b'#'; 4], [0; 72]));
    }
    let error = printing.read(&mut window).expect_err("the same by the reader");
    assert_eq!(error.kind(), ErrorKind::InvalidData);
    assert_eq!(error.downcast::<Error>().expect("it carries the refusal"), refusal);
    assert_eq!(printing.read(&mut []).expect("an empty buffer asks nothing"), 0);
    // the state is fresh still
    let mut printing = Printing::resume(&table, 100, printing.state());
    assert_eq!(printing.fill(&mut window), Ok(Some(4)));
}

#[test]
fn a_table_that_is_too_long_is_refused() {
    let long = vec![0; numbers::TABLE_LIMIT + 1];
    let error = Printing::new(&long, 100).fill(&mut []).expect_err("one byte too many");
    assert_eq!((error.number, error.place), (numbers::TOO_LONG, numbers::TABLE_LIMIT));
}

#[test]
fn an_empty_table_ends_at_once() {
    let mut printing = Printing::new(&[], 100);
    assert_eq!((printing.fill(&mut []), printing.looked()), (Ok(None), Some(0)));
    assert_eq!(Printing::new(&[], 100).write_to(&mut Vec::new()).expect("nothing to write"), 0);
}

/// Takes a few bytes at a time and fails before each.
struct Slow {
    taken: Vec<u8>,
    fails: [ErrorKind; 2],
    calls: usize,
}

impl Write for Slow {
    fn write(&mut self, bytes: &[u8]) -> io::Result<usize> {
        self.calls += 1;
        if self.calls % 2 == 1 {
            return Err(self.fails[self.calls / 2 % 2].into());
        }
        let n = bytes.len().min(self.calls % 7);
        self.taken.extend(&bytes[..n]);
        Ok(n)
    }

    fn flush(&mut self) -> io::Result<()> {
        Ok(())
    }
}

#[test]
fn a_writer_that_fails_loses_no_byte() {
    let table = read(&SOURCE.repeat(100)).expect("no refusal");
    let Text { bytes: text, looked } = print(&table, 40).expect("no refusal");
    assert!(text.len() > 2 * 4096, "more than one window");
    let fails = [ErrorKind::WouldBlock, ErrorKind::Interrupted];
    let (mut printing, mut out) = (Printing::new(&table, 40), Slow { taken: Vec::new(), fails, calls: 0 });
    loop {
        match printing.write_to(&mut out) {
            Ok(_) => break,
            Err(error) => assert!(matches!(error.kind(), ErrorKind::WouldBlock | ErrorKind::WriteZero)),
        }
    }
    assert_eq!((out.taken, printing.looked()), (text, Some(looked)), "what is taken back is counted once");
}

#[test]
fn it_copies_and_writes_to_anything() {
    let table = read(&SOURCE.repeat(100)).expect("no refusal");
    let text = print(&table, 100).expect("no refusal").bytes;
    let (mut copied, mut written) = (Vec::new(), Vec::new());
    let n = io::copy(&mut Printing::new(&table, 100), &mut copied).expect("a vector takes every byte");
    assert_eq!((n, &copied), (text.len() as u64, &text));
    let out: &mut dyn Write = &mut written;
    let n = Printing::new(&table, 100).write_to(out).expect("a vector takes every byte");
    assert_eq!((n, &written), (text.len() as u64, &text));
    let half =
        Printing::new(&table, 100).take(100).bytes().collect::<io::Result<Vec<u8>>>().expect("no error");
    assert_eq!(half, &text[..100]);
}
