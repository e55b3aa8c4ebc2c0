//! Settings per project: worked cases, at the edges of each refusal and in their order.

use tulbazhik::{
    Error, Setting, Settings, SettingsError, Side, numbers, write_style, write_style_into, write_width,
    write_width_into,
};

fn record(kind: u16, value: &[u8]) -> Vec<u8> {
    let length = 6 + value.len() as u32;
    [&length.to_le_bytes(), &kind.to_le_bytes()[..], value].concat()
}

/// A file with an edition first and these records behind it.
fn file(records: &[Vec<u8>]) -> Vec<u8> {
    [record(1, &[7, 0]), records.concat()].concat()
}

fn width(value: u32) -> Vec<u8> {
    record(2, &value.to_le_bytes())
}

/// A file of so many bytes: an edition and a record that is skipped.
fn long(bytes: usize) -> Vec<u8> {
    file(&[record(32768, &vec![0; bytes - 14])])
}

/// The side, number and place of a refusal, which is the same by each look-up.
fn refused(project: &[u8], house: &[u8]) -> (Side, u8, usize) {
    let settings = Settings::new(project, house);
    let error = settings.edition().expect_err("it is refused");
    assert_eq!(settings.width(), Err(error));
    assert_eq!(settings.style(), Err(error));
    let SettingsError { side, number, place } = error;
    (side, number, place)
}

#[test]
fn a_setting_is_the_projects_else_the_houses() {
    let (bare, narrow, broad) =
        (file(&[]), file(&[width(40)]), file(&[record(3, b"broad"), width(u32::MAX)]));
    let of = |project, house| Settings::new(project, house).width();
    assert_eq!(of(&narrow, &broad), Ok(Setting { value: 40, side: Side::Project }));
    assert_eq!(of(&broad, &narrow), Ok(Setting { value: u32::MAX, side: Side::Project }));
    assert_eq!(of(&bare, &broad), Ok(Setting { value: u32::MAX, side: Side::House }));
    let missing = SettingsError { side: Side::Neither, number: numbers::NOT_SET, place: 0 };
    assert_eq!(of(&bare, &bare), Err(missing));
    assert_eq!(Settings::new(&narrow, &bare).style(), Err(missing));

    let old = record(1, &[0x34, 0x12]);
    assert_eq!(Settings::new(&old, &bare).edition(), Ok(Setting { value: 0x1234, side: Side::Project }));
}

#[test]
fn a_style_name_is_a_part_of_its_file() {
    let (bare, styled) = (file(&[]), file(&[width(40), record(3, &[0xff, 0, b'\n'])]));
    for (project, house, side) in [(&styled, &bare, Side::Project), (&bare, &styled, Side::House)] {
        let style = Settings::new(project, house).style().expect("one of them sets it");
        assert_eq!((style.value, style.side), (&[0xff, 0, b'\n'][..], side));
        assert_eq!(style.value.as_ptr(), styled[24..].as_ptr(), "nothing is copied");
    }
    for len in [1, 32] {
        let styled = file(&[record(3, &vec![b'x'; len])]);
        assert_eq!(Settings::new(&styled, &bare).style().map(|style| style.value.len()), Ok(len));
    }
}

#[test]
fn a_bad_record_is_refused_where_it_stands() {
    let good = file(&[]);
    let (project, bad) = (Side::Project, numbers::BAD_SETTINGS);
    // no good edition is first
    for wrong in [&[][..], &good[..7], &width(40), &record(1, &[7]), &record(1, &[7, 0, 0])] {
        assert_eq!(refused(wrong, &good), (project, bad, 0), "{wrong:?}");
    }
    let eight: [&[Vec<u8>]; 11] = [
        &[record(0, &[])],
        &[record(4, b"unknown")],
        &[record(32767, &[])],
        &[record(2, &[0; 3])],
        &[record(2, &[0; 5])],
        &[record(3, &[])],
        &[record(3, &[b'x'; 33])],
        &[record(1, &[7, 0])],
        &[vec![5, 0, 0, 0, 0, 128]],
        &[vec![7, 0, 0, 0, 0, 128]],
        &[vec![6, 0, 0, 0, 0]],
    ];
    for wrong in eight {
        assert_eq!(refused(&file(wrong), &good), (project, bad, 8), "{wrong:?}");
    }
    // the second of its kind, also of one that is skipped
    for twice in [width(1), record(3, b"x"), record(32768, &[]), record(65535, b"yy")] {
        let place = 8 + twice.len() + 6;
        let wrong = file(&[twice.clone(), record(40000, &[]), twice, record(0, &[])]);
        assert_eq!(refused(&wrong, &good), (project, bad, place), "{wrong:?}");
    }
}

#[test]
fn skipped_kinds_have_any_length() {
    let skipped = file(&[record(32768, &[]), record(65535, &[1; 1000]), width(9), record(32769, &[0; 3])]);
    assert_eq!(Settings::new(&skipped, &skipped).width(), Ok(Setting { value: 9, side: Side::Project }));
}

#[test]
fn all_of_the_projects_file_comes_before_the_houses() {
    let (good, bad, far) = (file(&[width(1), record(3, b"x")]), file(&[record(4, &[])]), long(65_537));
    let (number, limit) = (numbers::TOO_LONG, numbers::SETTINGS_LIMIT);
    assert_eq!(refused(&far, &bad), (Side::Project, number, limit));
    assert_eq!(refused(&bad, &far), (Side::Project, numbers::BAD_SETTINGS, 8));
    assert_eq!(refused(&good, &far), (Side::House, number, limit), "though the project's has the answer");
    assert_eq!(refused(&good, &bad), (Side::House, numbers::BAD_SETTINGS, 8));
    // one byte fewer is no longer too long
    let full = long(65_536);
    assert_eq!(Settings::new(&full, &good).width(), Ok(Setting { value: 1, side: Side::House }));
}

#[test]
fn a_project_without_a_file_has_the_houses() {
    let house = file(&[width(80)]);
    let settings = Settings::house_only(&house);
    assert_eq!(settings.edition(), Ok(Setting { value: 7, side: Side::House }));
    assert_eq!(settings.width(), Ok(Setting { value: 80, side: Side::House }));
    let error = settings.style().expect_err("it is not set");
    assert_eq!((error.side, error.number, error.place), (Side::Neither, numbers::NOT_SET, 0));
    let error = Settings::house_only(&[]).width().expect_err("an empty file is a bad one");
    assert_eq!((error.side, error.number, error.place), (Side::House, numbers::BAD_SETTINGS, 0));
    assert_eq!(refused(&[], &house), (Side::Project, numbers::BAD_SETTINGS, 0));
}

#[test]
fn a_written_record_replaces_its_own_or_is_added() {
    let (before, after) = (record(32768, b"kept"), record(40000, &[0xff]));
    let old = file(&[before.clone(), width(1), after.clone()]);
    let new = file(&[before.clone(), width(0xa1b2c3d4), after.clone()]);
    assert_eq!(write_width(&old, 0xa1b2c3d4).as_ref(), Ok(&new));
    let styled = [&new[..], &record(3, b"broad")].concat();
    assert_eq!(write_style(&new, b"broad").as_ref(), Ok(&styled));
    // shorter and longer than what was there
    for name in [&b"x"[..], &[0; 32]] {
        let old = file(&[record(3, b"broad"), after.clone()]);
        assert_eq!(write_style(&old, name), Ok(file(&[record(3, name), after.clone()])));
    }
}

#[test]
fn writing_refuses_in_this_order() {
    let refusal = |number, place| Error { number, place };
    let (good, full) = (file(&[]), long(65_536));
    let (mut room, kept) = ([b'#'; 20], [b'#'; 20]);
    // the file, the name, the limit, the room
    let far = long(65_537);
    assert_eq!(write_style_into(&far, b"", &mut []), Err(refusal(numbers::TOO_LONG, 65_536)));
    assert_eq!(write_style_into(&[], b"", &mut []), Err(refusal(numbers::BAD_SETTINGS, 0)));
    for len in [0, 33, 70_000] {
        assert_eq!(
            write_style_into(&full, &vec![0; len], &mut []),
            Err(refusal(numbers::BAD_STYLE_NAME, len))
        );
    }
    assert_eq!(write_width_into(&full, 1, &mut []), Err(refusal(numbers::TOO_LONG, 65_536)));
    assert_eq!(write_width_into(&good, 1, &mut room[..17]), Err(refusal(numbers::PRINT_ROOM, 18)));
    assert_eq!(room, kept, "no refusal writes");
    assert_eq!(write_width_into(&good, 1, &mut room), Ok(18));
    assert_eq!((&room[..18], &room[18..]), (&file(&[width(1)])[..], &b"##"[..]));
    // a copy of the limit's length
    assert_eq!(write_width(&long(65_526), 1).map(|copy| copy.len()), Ok(65_536));
    assert_eq!(write_width(&long(65_527), 1), Err(refusal(numbers::TOO_LONG, 65_536)));
}

#[test]
fn a_refusal_says_which_file() {
    let good = file(&[]);
    let said = |project: &[u8], house: &[u8]| {
        Settings::new(project, house).width().expect_err("it is refused").to_string()
    };
    assert_eq!(
        said(&file(&[record(4, &[])]), &good),
        "the project's settings file: refusal 23 at 8: the record there is bad, or the second of its kind"
    );
    assert_eq!(
        said(&good, &long(65_537)),
        "the house's settings file: refusal 1 at 65536: longer than the limit"
    );
    let error: std::io::Error = Settings::new(&good, &good).width().expect_err("it is not set").into();
    assert_eq!(error.kind(), std::io::ErrorKind::InvalidData);
}
