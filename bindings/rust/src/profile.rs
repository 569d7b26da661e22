use std::array;
use std::error::Error;
use std::fmt;

use crate::sys::{tl_profile, TL_PROFILE_DEFAULT};
use crate::{calls, Refusal, MAX_PAGE};

/// The bytes of a void name's place.
const PLACE: usize = 16;

/// What a counterparty's pages are like: how long they may be, which bytes are white in them, and which tag names are void,
/// so that a tag of such a name is never open.
///
/// [`Profile::default`] is tl's own. Another is made from it step by step, and each step says what cannot be in a profile
/// ([`ProfileError`]).
///
/// ```
/// use tl_rattle::{parse_with, Profile};
/// let profile = Profile::default()
///     .with_limit(4096)?
///     .with_white(" \n\t")?
///     .and_void_name("cell-end")?;
/// let dom = parse_with(&profile, "<td\tk=1\tj=2>120<cell-end>VOD")?;
/// let cell = dom.query_selector("td")?[0];
/// assert_eq!(dom.attribute(cell, "k")?.value(), Some(&b"1"[..]));
/// assert_eq!(dom.inner_text(cell)?, b"120VOD");
/// # Ok::<(), Box<dyn std::error::Error>>(())
/// ```
///
/// White bytes serve wherever white is skipped in a page, and they, `/` and `>` end an unquoted value. Under every profile
/// class values are cut at HTML's five white bytes, and selectors skip space alone.
///
/// A profile is 392 bytes, which may be kept in a file ([`Profile::to_bytes`]). Bytes that were not written so need not be a
/// fine profile: then every call under it is refused as [`Refusal::ProfileNotFine`].
#[derive(Clone, Copy, PartialEq, Eq, Hash)]
#[repr(transparent)]
pub struct Profile(tl_profile);

impl Profile {
    /// tl's own profile, with which [`parse`](crate::parse) reads: 65,536 bytes; space and line feed; and the names area,
    /// base, br, col, embed, hr, img, input, keygen, link, meta, param, source, track and wbr.
    pub const TL: Profile = Profile(TL_PROFILE_DEFAULT);

    /// The bytes of a profile.
    pub const SIZE: usize = 392;

    /// The same with another limit: the most bytes that a page may have, from 1 to [`MAX_PAGE`].
    ///
    /// # Errors
    /// [`ProfileError::Limit`].
    pub fn with_limit(mut self, limit: usize) -> Result<Profile, ProfileError> {
        if limit == 0 || limit > MAX_PAGE {
            return Err(ProfileError::Limit(limit));
        }
        self.0.limit = limit as u32;
        Ok(self)
    }

    /// The same with these white bytes and no others: up to 4, each from 1 to 32.
    ///
    /// # Errors
    /// [`ProfileError::TooManyWhite`], [`ProfileError::White`].
    pub fn with_white<W>(mut self, white: W) -> Result<Profile, ProfileError>
    where
        W: AsRef<[u8]>,
    {
        let white = white.as_ref();
        self.0.white = padded(white).ok_or(ProfileError::TooManyWhite)?;
        match white.iter().find(|byte| !matches!(byte, 1..=32)) {
            Some(byte) => Err(ProfileError::White(*byte)),
            None => Ok(self),
        }
    }

    /// The same without void names.
    ///
    /// ```
    /// use tl_rattle::{parse_with, Handle, Profile};
    /// let none = Profile::default().without_void_names();
    /// let dom = parse_with(&none, "<br>a</br>")?;
    /// assert_eq!(dom.inner_text(Handle::new(0))?, b"a");
    /// # Ok::<(), tl_rattle::Refusal>(())
    /// ```
    pub fn without_void_names(mut self) -> Profile {
        self.0.void_names = Default::default();
        self
    }

    /// The same with these void names and no others.
    ///
    /// # Errors
    /// As [`Profile::and_void_name`].
    pub fn with_void_names<I>(self, names: I) -> Result<Profile, ProfileError>
    where
        I: IntoIterator,
        I::Item: AsRef<[u8]>,
    {
        let mut names = names.into_iter();
        names.try_fold(self.without_void_names(), Profile::and_void_name)
    }

    /// The same with a void name more, in the first free place of 24. It has 1 to 16 bytes: letters, digits, `-`, `_`, `:`,
    /// `+` and `/`. Names compare byte for byte, so `BR` is another than `br`.
    ///
    /// ```
    /// use tl_rattle::{Profile, ProfileError};
    /// let refused = Profile::default().and_void_name("line break");
    /// // tl's fifteen have the numbers 0 to 14
    /// assert_eq!(refused, Err(ProfileError::NameByte(15, b' ')));
    /// ```
    ///
    /// # Errors
    /// [`ProfileError::TooManyNames`], [`ProfileError::NameEmpty`], [`ProfileError::NameTooLong`],
    /// [`ProfileError::NameByte`].
    pub fn and_void_name<N>(mut self, name: N) -> Result<Profile, ProfileError>
    where
        N: AsRef<[u8]>,
    {
        let mut places = self.0.void_names.iter_mut().enumerate();
        let free = places.find(|(_, place)| place[0] == 0);
        let (number, place) = free.ok_or(ProfileError::TooManyNames)?;
        *place = void_name(number, name.as_ref())?;
        Ok(self)
    }

    /// The most bytes that a page may have.
    pub fn limit(&self) -> usize {
        self.0.limit as usize
    }

    /// The white bytes, in the order of their places.
    pub fn white(&self) -> impl Iterator<Item = u8> + '_ {
        self.0.white.into_iter().filter(|byte| *byte != 0)
    }

    /// The void names, in the order of their places.
    pub fn void_names(&self) -> impl Iterator<Item = &[u8]> + '_ {
        let places = self.0.void_names.iter();
        let names = places.filter_map(|place| place.split(|byte| *byte == 0).next());
        names.filter(|name| !name.is_empty())
    }

    /// Whether the calls take the profile. They take every one that was made step by step from tl's.
    pub fn is_fine(&self) -> bool {
        // a table of no words is refused too, but later
        calls::parse(self, b"", &mut []) != Err(Refusal::ProfileNotFine)
    }

    /// The profile of 392 bytes: the limit, low byte first; the white bytes; the void names. It need not be fine.
    ///
    /// ```
    /// use tl_rattle::{parse_with, Profile, Refusal};
    /// let mut bytes = Profile::default().to_bytes();
    /// assert_eq!(Profile::from_bytes(&bytes), Profile::TL);
    /// bytes[4] = b'!';
    /// let profile = Profile::from_bytes(&bytes);
    /// assert!(!profile.is_fine());
    /// assert_eq!(parse_with(&profile, "<p>").err(), Some(Refusal::ProfileNotFine));
    /// ```
    pub fn from_bytes(bytes: &[u8; Profile::SIZE]) -> Profile {
        let [a, b, c, d, first, second, third, fourth, names @ ..] = *bytes;
        let name = |number| array::from_fn(|at| names[PLACE * number + at]);
        Profile(tl_profile {
            limit: u32::from_le_bytes([a, b, c, d]),
            white: [first, second, third, fourth],
            void_names: array::from_fn(name),
        })
    }

    /// The profile's bytes, from which [`Profile::from_bytes`] makes it again.
    pub fn to_bytes(&self) -> [u8; Profile::SIZE] {
        let mut bytes = [0; Profile::SIZE];
        bytes[..4].copy_from_slice(&self.0.limit.to_le_bytes());
        bytes[4..8].copy_from_slice(&self.0.white);
        bytes[8..].copy_from_slice(self.0.void_names.as_flattened());
        bytes
    }

    /// The profile as a C program has it. It need not be fine.
    pub const fn from_raw(raw: tl_profile) -> Profile {
        Profile(raw)
    }

    /// The profile as the C interface takes it.
    pub const fn as_raw(&self) -> &tl_profile {
        &self.0
    }
}

impl Default for Profile {
    /// tl's own.
    fn default() -> Profile {
        Profile::TL
    }
}

impl fmt::Debug for Profile {
    fn fmt(&self, f: &mut fmt::Formatter<'_>) -> fmt::Result {
        let names: Vec<_> = self.void_names().map(String::from_utf8_lossy).collect();
        f.debug_struct("Profile")
            .field("limit", &self.limit())
            .field("white", &self.white().collect::<Vec<_>>())
            .field("void_names", &names)
            .finish()
    }
}

/// What cannot be in a profile. The numbers of void names count from 0.
#[derive(Debug, Clone, Copy, PartialEq, Eq, Hash)]
#[non_exhaustive]
pub enum ProfileError {
    /// This limit, which is 0 or over 65,536.
    Limit(usize),
    /// More than 4 white bytes.
    TooManyWhite,
    /// This white byte, which is 0 or over 32.
    White(u8),
    /// More than 24 void names.
    TooManyNames,
    /// The void name of this number, which is empty.
    NameEmpty(usize),
    /// The void name of this number, which has over 16 bytes.
    NameTooLong(usize),
    /// In the void name of this number this byte, which is no letter, no digit and none of `-`, `_`, `:`, `+` and `/`.
    NameByte(usize, u8),
}

impl fmt::Display for ProfileError {
    fn fmt(&self, f: &mut fmt::Formatter<'_>) -> fmt::Result {
        match *self {
            ProfileError::Limit(limit) => write!(f, "limit {limit} is not from 1 to 65,536"),
            ProfileError::TooManyWhite => write!(f, "more than 4 white bytes"),
            ProfileError::White(byte) => write!(f, "white byte {byte} is not from 1 to 32"),
            ProfileError::TooManyNames => write!(f, "more than 24 void names"),
            ProfileError::NameEmpty(number) => write!(f, "void name {number} is empty"),
            ProfileError::NameTooLong(number) => write!(f, "void name {number} is over 16 bytes"),
            ProfileError::NameByte(number, byte) => {
                let byte = byte.escape_ascii();
                write!(
                    f,
                    "void name {number} has '{byte}', which no void name may have"
                )
            }
        }
    }
}

impl Error for ProfileError {}

/// The bytes with zeros behind them, if there is room for all.
fn padded<const N: usize>(bytes: &[u8]) -> Option<[u8; N]> {
    let mut place = [0; N];
    place.get_mut(..bytes.len())?.copy_from_slice(bytes);
    Some(place)
}

/// Whether a void name may have a byte.
fn is_identifier(byte: u8) -> bool {
    byte.is_ascii_alphanumeric() || b"-_:+/".contains(&byte)
}

/// The void name of a number in its place.
fn void_name(number: usize, name: &[u8]) -> Result<[u8; PLACE], ProfileError> {
    if name.is_empty() {
        return Err(ProfileError::NameEmpty(number));
    }
    let place = padded(name).ok_or(ProfileError::NameTooLong(number))?;
    match name.iter().find(|byte| !is_identifier(**byte)) {
        Some(byte) => Err(ProfileError::NameByte(number, *byte)),
        None => Ok(place),
    }
}
