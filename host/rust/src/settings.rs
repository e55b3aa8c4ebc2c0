//! Settings per project: looking them up in a project's file with the house file behind it, and copies of a file with one changed.

use std::{fmt, io};

use crate::error::Error;
use crate::ffi::{self, LookUp, Words, kind, side};
use crate::numbers;
use crate::tables::{grown, length_of};

/// Whose settings file an answer comes from, or which is at fault.
#[derive(Clone, Copy, Debug, PartialEq, Eq)]
pub enum Side {
    Project,
    House,
    /// The setting is in neither file; with [`numbers::NOT_SET`] alone.
    Neither,
}

impl Side {
    fn of_words([.., word]: Words) -> Side {
        match word {
            side::PROJECT => Side::Project,
            side::HOUSE => Side::House,
            _ => Side::Neither,
        }
    }
}

/// A setting, and whose file it is set in.
#[derive(Clone, Copy, Debug, PartialEq, Eq)]
pub struct Setting<T> {
    pub value: T,
    /// The project's or the house's.
    pub side: Side,
}

/// A project's settings file with the house file behind it: a setting is the project's if it is set there, else the house's.
/// Both files are checked whole at each look-up, all of the project's before the house's, even where the project's has the answer.
///
/// ```
/// use tulbazhik::{Setting, Settings, Side};
///
/// let project = [8, 0, 0, 0, 1, 0, 4, 0]; // edition 4
/// let house = tulbazhik::write_width(&project, 80)?;
/// let house = tulbazhik::write_style(&house, b"broad")?;
///
/// let settings = Settings::new(&project, &house);
/// assert_eq!(settings.width()?, Setting { value: 80, side: Side::House });
/// assert_eq!(settings.style()?.value, b"broad"); // a part of the house file, nothing is copied
///
/// let project = tulbazhik::write_width(&project, 120)?;
/// assert_eq!(Settings::new(&project, &house).width()?, Setting { value: 120, side: Side::Project });
/// # Ok::<(), Box<dyn std::error::Error>>(())
/// ```
#[derive(Clone, Copy, Debug)]
pub struct Settings<'f> {
    /// None where the project has no file.
    project: Option<&'f [u8]>,
    house: &'f [u8],
}

impl<'f> Settings<'f> {
    /// The files as they are. An empty one is no absent one: it has no edition, and every look-up refuses it (23 at 0). For a
    /// project that has no file there is [`house_only`](Settings::house_only).
    pub fn new(project: &'f [u8], house: &'f [u8]) -> Settings<'f> {
        Settings { project: Some(project), house }
    }

    /// The settings of a project that has no file of its own. The library is lent the house file in both places, and what it
    /// says of the project's file is told as the house's.
    ///
    /// ```
    /// use tulbazhik::{Setting, Settings, Side};
    ///
    /// let house = tulbazhik::write_width(&[8, 0, 0, 0, 1, 0, 4, 0], 80)?;
    /// assert_eq!(Settings::house_only(&house).width()?, Setting { value: 80, side: Side::House });
    /// assert!(Settings::new(&[], &house).width().is_err()); // an empty file is there, and is bad
    /// # Ok::<(), Box<dyn std::error::Error>>(())
    /// ```
    pub fn house_only(house: &'f [u8]) -> Settings<'f> {
        Settings { project: None, house }
    }

    /// The edition of the project's file, or of the house's where the project has none.
    pub fn edition(&self) -> Result<Setting<u16>, SettingsError> {
        let (words, side) = self.look_up(ffi::tulbazhik_edition)?;
        Ok(Setting { value: words[4] as u16, side })
    }

    /// The width.
    pub fn width(&self) -> Result<Setting<u32>, SettingsError> {
        let (words, side) = self.look_up(ffi::tulbazhik_width)?;
        Ok(Setting { value: words[4] as u32, side })
    }

    /// The style name: 1 to 32 bytes, a part of the file that sets it. They need not be text.
    pub fn style(&self) -> Result<Setting<&'f [u8]>, SettingsError> {
        let (words, side) = self.look_up(ffi::tulbazhik_style)?;
        let [_, place, len, ..] = words;
        let file = match (side, self.project) {
            (Side::Project, Some(project)) => project,
            _ => self.house,
        };
        Ok(Setting { value: &file[place as usize..(place + len) as usize], side })
    }

    /// The words of an answer that is no refusal, and its side.
    fn look_up(&self, function: LookUp) -> Result<(Words, Side), SettingsError> {
        let (project, house) = (self.project.unwrap_or(self.house), self.house);
        // SAFETY: the pointers and lengths are slices', which are read alone; the answer meets neither.
        let words = unsafe {
            ffi::written(|answer| {
                function(project.as_ptr(), project.len(), house.as_ptr(), house.len(), answer)
            })
        };
        let side = match Side::of_words(words) {
            Side::Project if self.project.is_none() => Side::House,
            side => side,
        };
        match words {
            [kind::DONE, ..] => Ok((words, side)),
            [_, place, number, ..] => {
                Err(SettingsError { side, number: number as u8, place: place as usize })
            }
        }
    }
}

/// Why a look-up has no answer: the file that is at fault, and its refusal.
///
/// ```
/// use tulbazhik::{Settings, Side, numbers};
///
/// let good = [8, 0, 0, 0, 1, 0, 4, 0];
/// let error = Settings::new(&good, &good[..7]).width().expect_err("the record is cut");
/// assert_eq!((error.side, error.number, error.place), (Side::House, numbers::BAD_SETTINGS, 0));
/// assert_eq!(error.to_string(), "the house's settings file: refusal 23 at 0: its first record is no good edition");
///
/// let error = Settings::new(&good, &good).width().expect_err("it is not set");
/// assert_eq!(error.to_string(), "both settings files: refusal 24 at 0: neither sets it");
/// ```
#[derive(Clone, Copy, Debug, PartialEq, Eq)]
pub struct SettingsError {
    /// The file at fault; `Neither` where both are good.
    pub side: Side,
    /// [`TOO_LONG`](numbers::TOO_LONG), [`BAD_SETTINGS`](numbers::BAD_SETTINGS) or [`NOT_SET`](numbers::NOT_SET).
    pub number: u8,
    /// For 1 the limit, for 23 the place of the record at fault in that file, for 24 nothing: 0.
    pub place: usize,
}

impl fmt::Display for SettingsError {
    fn fmt(&self, f: &mut fmt::Formatter<'_>) -> fmt::Result {
        let whose = match self.side {
            Side::Project => "the project's settings file",
            Side::House => "the house's settings file",
            Side::Neither => "both settings files",
        };
        let meaning = match (self.number, self.place) {
            (numbers::BAD_SETTINGS, 0) => "its first record is no good edition",
            (numbers::BAD_SETTINGS, _) => "the record there is bad, or the second of its kind",
            (numbers::NOT_SET, _) => "neither sets it",
            (number, _) => numbers::meaning(number),
        };
        write!(f, "{whose}: refusal {} at {}: {meaning}", self.number, self.place)
    }
}

impl std::error::Error for SettingsError {}

/// For readers and writers: of the kind `InvalidData`, with the refusal inside.
impl From<SettingsError> for io::Error {
    fn from(error: SettingsError) -> io::Error {
        io::Error::new(io::ErrorKind::InvalidData, error)
    }
}

/// The bytes that a copy has more than its file, at most: a record's head and a name of 32 bytes.
const MOST_ADDED: usize = 38;

/// Copies a settings file into `room` with the width replaced in its place, or added at the end, and gives the copy's length. Every
/// other record keeps its bytes. Where the room is too small, the refusal is 18, its place is the bytes needed, and the room
/// stays as it was, as after every refusal.
pub fn write_width_into(file: &[u8], width: u32, room: &mut [u8]) -> Result<usize, Error> {
    // SAFETY: both pointers and lengths are slices', which do not meet, for one of them is `&mut`; the answer meets neither.
    length_of(unsafe {
        ffi::written(|answer| {
            ffi::tulbazhik_write_width(
                file.as_ptr(),
                file.len(),
                width,
                room.as_mut_ptr(),
                room.len(),
                answer,
            )
        })
    })
}

/// The copy of a settings file with a width.
///
/// ```
/// let copy = tulbazhik::write_width(&[8, 0, 0, 0, 1, 0, 4, 0], 100)?;
/// assert_eq!(copy, [8, 0, 0, 0, 1, 0, 4, 0, 10, 0, 0, 0, 2, 0, 100, 0, 0, 0]);
/// # Ok::<(), tulbazhik::Error>(())
/// ```
pub fn write_width(file: &[u8], width: u32) -> Result<Vec<u8>, Error> {
    grown(file.len() + MOST_ADDED, numbers::PRINT_ROOM, |room| write_width_into(file, width, room))
}

/// The same as [`write_width_into`] with a style name, which has 1 to 32 bytes of any value.
pub fn write_style_into(file: &[u8], name: &[u8], room: &mut [u8]) -> Result<usize, Error> {
    // SAFETY: as in `write_width_into`.
    length_of(unsafe {
        ffi::written(|answer| {
            ffi::tulbazhik_write_style(
                file.as_ptr(),
                file.len(),
                name.as_ptr(),
                name.len(),
                room.as_mut_ptr(),
                room.len(),
                answer,
            )
        })
    })
}

/// The copy of a settings file with a style name.
///
/// ```
/// use tulbazhik::numbers;
///
/// let file = [8, 0, 0, 0, 1, 0, 4, 0];
/// let copy = tulbazhik::write_style(&file, b"broad")?;
/// assert_eq!(&copy[8..], b"\x0b\0\0\0\x03\0broad");
/// let error = tulbazhik::write_style(&file, &[b'x'; 33]).expect_err("a name has 32 bytes at most");
/// assert_eq!(error.to_string(), "refusal 26 at 33: a style name's length is not 1 to 32 bytes");
/// # Ok::<(), tulbazhik::Error>(())
/// ```
pub fn write_style(file: &[u8], name: &[u8]) -> Result<Vec<u8>, Error> {
    grown(file.len() + MOST_ADDED, numbers::PRINT_ROOM, |room| write_style_into(file, name, room))
}
