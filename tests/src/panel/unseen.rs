//! What shows nothing or moves the cursor, by Unicode 15.

/// First and last code points, in order, with all between them: the general categories Cc, Cf, Zl,
/// Zp and Zs but for U+0020; Default_Ignorable_Code_Point, which also has some that are not
/// assigned; noncharacters that do not end a plane; and blanks that count as letters or signs.
const RANGES: [(u32, u32); 34] = [
    (0x0000, 0x001f),   // controls
    (0x007f, 0x00a0),   // controls, a space that does not break
    (0x00ad, 0x00ad),   // soft hyphen
    (0x034f, 0x034f),   // grapheme joiner
    (0x0600, 0x0605),   // Arabic signs that stand about a number
    (0x061c, 0x061c),   // Arabic letter mark
    (0x06dd, 0x06dd),   // Arabic end of ayah
    (0x070f, 0x070f),   // Syriac abbreviation mark
    (0x0890, 0x0891),   // Arabic pound and piastre marks
    (0x08e2, 0x08e2),   // Arabic disputed end of ayah
    (0x115f, 0x1160),   // Hangul fillers
    (0x1680, 0x1680),   // Ogham space
    (0x17b4, 0x17b5),   // Khmer inherent vowels
    (0x180b, 0x180f),   // Mongolian selectors and vowel separator
    (0x2000, 0x200f),   // spaces, joiners, marks of direction
    (0x2028, 0x202f),   // separators, directions, a narrow space
    (0x205f, 0x206f),   // a mathematical space, joiners, directions
    (0x2800, 0x2800),   // Braille blank: a sign
    (0x3000, 0x3000),   // ideographic space
    (0x3164, 0x3164),   // Hangul filler
    (0xfdd0, 0xfdef),   // noncharacters
    (0xfe00, 0xfe0f),   // selectors
    (0xfeff, 0xfeff),   // zero width space that does not break
    (0xffa0, 0xffa0),   // half-width Hangul filler
    (0xfff0, 0xfffb),   // not assigned, annotations
    (0x110bd, 0x110bd), // Kaithi number sign
    (0x110cd, 0x110cd), // Kaithi number sign above
    (0x13430, 0x1343f), // Egyptian format controls
    (0x13441, 0x13442), // Egyptian blanks: letters
    (0x16fe4, 0x16fe4), // Khitan filler
    (0x1bca0, 0x1bca3), // shorthand format controls
    (0x1d159, 0x1d159), // musical null notehead: a sign
    (0x1d173, 0x1d17a), // musical format controls
    (0xe0000, 0xe0fff), // tags, selectors, not assigned
];

/// The last two code points of each plane are noncharacters.
const PLANE: u32 = 0x1_0000;
const LAST_TWO: u32 = 0xfffe;

pub fn is_unseen(letter: char) -> bool {
    let code = u32::from(letter);
    let is_within = |&(first, last): &(u32, u32)| (first..=last).contains(&code);
    code % PLANE >= LAST_TWO || RANGES.iter().any(is_within)
}
