//! Request K1 worked through: lines and files that are refused with 4, each with the field and the
//! cause that the request gives, by hand. Every position of each table with every cause that can
//! occur there; `witness selftest` asks for these answers, and scenarios have these lines in files.

use crate::faults::Cause::{self, After, Character, Closing, Code, Date, Length, Value};
use crate::files::FileKind::{self, Correction, Default, Request, Response};

/// A line, the "Pos." of its first faulty field, and the cause.
pub type WrongLine = (&'static [u8], usize, Cause);

/// Lines of files of this kind that end in CR.
pub fn wrong_lines(kind: FileKind) -> &'static [WrongLine] {
    match kind {
        Default | Response => REPORTS,
        Correction => CORRECTIONS,
        Request => REQUESTS,
    }
}

/// What is left of files of this kind without a CR.
pub fn unended_lines(kind: FileKind) -> &'static [WrongLine] {
    match kind {
        Default | Response => UNENDED_REPORTS,
        Correction => UNENDED_CORRECTIONS,
        Request => UNENDED_REQUESTS,
    }
}

/// Records of files of this kind.
pub fn good_lines(kind: FileKind) -> &'static [&'static [u8]] {
    match kind {
        Default | Response => &[
            b"3055501,,04032024,D002,D001,P",
            b"3055500,3055509,04032024,D002,D001,L",
            b"12345678900,12345678999,31122049,D999,D000,Z",
            b"7,,01011998,,D001,Z",
        ],
        Correction => &[
            b"2500U:3055501,,04032024,D002,D001,P,K:,,,,,",
            b"2547U:30500,30599,04032024,,D001,Z,K:,,,,,",
            b"0500U:3012345000,3012345999,12022002,D009,D001,P,K:3012345000,3012345999,12022002,D009,D005,P",
            b"2500U:3055500,3055509,04032024,D002,D001,L,K:3055500,3055509,05032024,D003,D001,L",
            b"6000U:,,,,,,K:3012345000,3012345999,12042004,D001,D009,L",
            b"4200U:12300,12399,15062004,D002,D002,,K:12300,12329,10072008,D002,D002,",
            b"0000U:7,,,,,,K:,,,,,",
        ],
        Request => &[b"D456,,", b"D987,01041998,"],
    }
}

#[rustfmt::skip]
/// Report record (4.5.2.3).
const REPORTS: &[WrongLine] = &[
    // Pos. 1, num1
    (b"305\x005501,,04032024,D002,D001,P", 1, Character),
    (b"\x083055501,,04032024,D002,D001,P", 1, Character),
    (b"\x0b3055501,,04032024,D002,D001,P", 1, Character),
    (b"3055501\x0c,,04032024,D002,D001,P", 1, Character),
    (b"3055501\x0e,,04032024,D002,D001,P", 1, Character),
    (b"305\x1f5501,,04032024,D002,D001,P", 1, Character),
    (b"305\x7f5501,,04032024,D002,D001,P", 1, Character),
    (b"305\xbf5501,,04032024,D002,D001,P", 1, Character),
    (b"30555011234\x80,,04032024,D002,D001,P", 1, Character),  // before the length
    (b"305550a\x80,,04032024,D002,D001,P", 1, Character),      // before the value
    (b",,04032024,D002,D001,P", 1, Length),
    (b",3055509,04032024,D002,D001,P", 1, Length),
    (b"", 1, Length),
    (b",,,,,", 1, Length),
    (b"123456789012,,04032024,D002,D001,P", 1, Length),
    (b"12345678901a,,04032024,D002,D001,P", 1, Length),        // before the value
    (b"3055501;;04032024;D002;D001;P", 1, Length),
    (b"2500U:3055501,,04032024,D002,D001,P,K:,,,,,", 1, Length),
    (b"zeilenanzahl:2,", 1, Length),
    (b"Zeilenanzahl 2,", 1, Length),
    (b"\nZeilenanzahl:2,", 1, Length),
    (b"305550a,,04032024,D002,D001,P", 1, Value),
    (b" 3055501,,04032024,D002,D001,P", 1, Value),
    (b"3055501 ,,04032024,D002,D001,P", 1, Value),
    (b"-3055501,,04032024,D002,D001,P", 1, Value),
    (b"\n3055501,,04032024,D002,D001,P", 1, Value),
    (b"305\t5501,,04032024,D002,D001,P", 1, Value),
    (b"305~5501,,04032024,D002,D001,P", 1, Value),
    (b"305\xc05501,,04032024,D002,D001,P", 1, Value),
    (b"305\xff5501,,04032024,D002,D001,P", 1, Value),
    (b"x", 1, Value),
    (b"305550a,,30022024,D00B,D00A,X", 1, Value),              // the first field counts
    // Pos. 3, num2
    (b"3055500,30555\x0b9,04032024,D002,D001,P", 3, Character),
    (b"3055500,\x7f,04032024,D002,D001,P", 3, Character),
    (b"3055500,123456789012,04032024,D002,D001,P", 3, Length),
    (b"3055500,           x,04032024,D002,D001,P", 3, Length),
    (b"3055500,305550x,04032024,D002,D001,P", 3, Value),
    (b"3055501, ,04032024,D002,D001,P", 3, Value),
    (b"3055500,305559,04032024,D002,D001,P", 3, Value),        // rule 8: another length
    (b"305550,3055599,04032024,D002,D001,P", 3, Value),
    (b"3055501,3055509,04032024,D002,D001,P", 3, Value),       // rule 5
    (b"3055500,3055508,04032024,D002,D001,P", 3, Value),
    (b"3055550,3055519,04032024,D002,D001,P", 3, Value),
    (b"68975678070,68975678129,04032024,D002,D001,P", 3, Value),
    (b"121,122,15062004,D002,D001,P", 3, Value),               // 11.1.2.7
    (b"123,123,15062004,D003,D001,L", 3, Value),               // 11.1.2.10
    (b"3055501,04032024,D002,D001,P", 3, Value),
    (b"3055501,3055502,0403\x0024,D002,D001,P", 3, Value),     // a rule before a later field
    // Pos. 5, porting date
    (b"3055501,,0403\x1f024,D002,D001,P", 5, Character),
    (b"3055501,,\xa004032024,D002,D001,P", 5, Character),
    (b"3055501,,,D002,D001,P", 5, Length),
    (b"3055501,,4032024,D002,D001,P", 5, Length),
    (b"3055501,,004032024,D002,D001,P", 5, Length),
    (b"3055501,, 04032024,D002,D001,P", 5, Length),
    (b"3055501,,D002,D001,P", 5, Length),
    (b"3055501,,,04032024,D002,D001,P", 5, Length),
    (b"3055501", 5, Length),
    (b"3055501,", 5, Length),
    (b"3055500,3055509", 5, Length),
    (b"3055501,,30022024,D002,D001,P", 5, Date),
    (b"3055501,,29022023,D002,D001,P", 5, Date),
    (b"3055501,,00032024,D002,D001,P", 5, Date),
    (b"3055501,,04132024,D002,D001,P", 5, Date),
    (b"3055501,,04031997,D002,D001,P", 5, Date),
    (b"3055501,,04032050,D002,D001,P", 5, Date),
    (b"3055501,,20240304,D002,D001,P", 5, Date),
    (b"3055501,,04.03.24,D002,D001,P", 5, Date),
    (b"3055501,, 4032024,D002,D001,P", 5, Date),
    (b"3055501,,0403202\n,D002,D001,P", 5, Date),
    (b"3055501,,30022024,D0\x002,D001,P", 5, Date),            // an earlier field, a later cause
    // Pos. 7, gaining network
    (b"3055501,,04032024,D0\x012,D001,P", 7, Character),
    (b"3055501,,04032024,\x90,D001,P", 7, Character),
    (b"3055501,,04032024,D02,D001,P", 7, Length),
    (b"3055501,,04032024,D0002,D001,P", 7, Length),
    (b"3055501,,04032024,D002 ,D001,P", 7, Length),
    (b"3055501,,04032024,D002D001,P", 7, Length),
    (b"3055501,,04032024,D00B,D001,P", 7, Code),
    (b"3055501,,04032024,d002,D001,P", 7, Code),
    (b"3055501,,04032024,0002,D001,P", 7, Code),
    (b"3055501,,04032024,D-02,D001,P", 7, Code),
    (b"3055501,,04032024,    ,D001,Z", 7, Code),
    // Pos. 9, losing network
    (b"3055501,,04032024,D002,D0\xb01,P", 9, Character),
    (b"3055501,,04032024,D002,,P", 9, Length),
    (b"3055501,,04032024,,,P", 9, Length),
    (b"3055501,,04032024,D002,,D001,P", 9, Length),
    (b"3055501,,04032024,D002,D01,P", 9, Length),
    (b"3055501,,04032024,D002,D0001,P", 9, Length),
    (b"3055501,,04032024,D001,P", 9, Length),
    (b"3055501,,04032024,D002", 9, Length),
    (b"3055501,,04032024", 9, Length),
    (b"3055501,,04032024,D002,D00A,P", 9, Code),
    (b"3055501,,04032024,,E001,P", 9, Code),
    // Pos. 11, status
    (b"3055501,,04032024,D002,D001,\x00", 11, Character),
    (b"3055501,,04032024,D002,D001,P\x1a", 11, Character),
    (b"3055501,,04032024,D002,D001,", 11, Length),
    (b"3055501,,04032024,D002,D001", 11, Length),
    (b"3055501,,04032024,,D001,", 11, Length),
    (b"3055501,,04032024,D002,D001,PL", 11, Length),
    (b"3055501,,04032024,D002,D001,P ", 11, Length),
    (b"3055501,,04032024,D002,D001,P\n", 11, Length),
    (b"3055501,,04032024,D002,D001,P,", 11, Length),
    (b"3055501,,04032024,D002,D001,X", 11, Value),
    (b"3055501,,04032024,D002,D001,p", 11, Value),
    (b"3055501,,04032024,D002,D001, ", 11, Value),
    (b"3055501,,04032024,D002,D001,,", 11, Value),
    (b"3055501,,04032024,,D001,X", 11, Value),
    (b"3055501,,04032024,,D001,P", 11, Value),                 // goes nowhere
    (b"3055501,,04032024,,D001,L", 11, Value),
];

#[rustfmt::skip]
/// The same without a CR: Pos. 12, and what comes before it.
const UNENDED_REPORTS: &[WrongLine] = &[
    (b"3055501,,04032024,D002,D001,P", 12, Length),
    (b"7,,01011998,,D001,Z", 12, Length),
    (b"3055501,,04032024,D002,D001,P\n", 11, Length),
    (b"3055501,,04032024,D002,D001,", 11, Length),
    (b"3055501,,04032024,D002,D00", 9, Length),
    (b"3055501,,0403", 5, Length),
    (b"3", 5, Length),
    (b"\x1a", 1, Character),
    (b"Zeilenanzahl", 1, Length),
    (b"Zeilen", 1, Value),
    (b"\n", 1, Value),
];

#[rustfmt::skip]
/// Correction record (4.7.8).
const CORRECTIONS: &[WrongLine] = &[
    // Pos. 1, code
    (b"25\x000U:3055501,,04032024,D002,D001,P,K:,,,,,", 1, Character),
    (b"25\x7f00U:3055501,,04032024,D002,D001,P,K:,,,,,", 1, Character),
    (b"\x80", 1, Character),
    (b"", 1, Length),
    (b",,,,,,,,,,,", 1, Length),
    (b"25", 1, Length),
    (b"U:3055501,,04032024,D002,D001,P,K:,,,,,", 1, Length),
    (b"250U:3055501,,04032024,D002,D001,P,K:,,,,,", 1, Length),
    (b"02500U:3055501,,04032024,D002,D001,P,K:,,,,,", 1, Length),
    (b"2500 U:3055501,,04032024,D002,D001,P,K:,,,,,", 1, Length),
    (b"\n2500U:3055501,,04032024,D002,D001,P,K:,,,,,", 1, Length),
    (b"2500UU:3055501,,04032024,D002,D001,P,K:,,,,,", 1, Length),
    (b"25003055501U:,,04032024,D002,D001,P,K:,,,,,", 1, Length),
    (b"2X00U:3055501,,04032024,D002,D001,P,K:,,,,,", 1, Value),
    (b" 500U:3055501,,04032024,D002,D001,P,K:,,,,,", 1, Value),
    (b"250:3055501,,04032024,D002,D001,P,K:,,,,,", 1, Value),
    (b"K:3055501,,04032024,D002,D001,P,U:,,,,,", 1, Value),
    (b"zeilenanzahl:2,", 1, Value),
    (b"\nZeilenanzahl:2,", 1, Value),
    (b"2\xff00K:305\x005501,,04032024,D002,D001,P,K:,,,,,", 1, Value),
    // Pos. 2, `U:`
    (b"2500\x07:3055501,,04032024,D002,D001,P,K:,,,,,", 2, Character),
    (b"2500U\x003055501,,04032024,D002,D001,P,K:,,,,,", 2, Character),
    (b"2500\x80", 2, Character),
    (b"2500", 2, Length),
    (b"2500,,04032024,D002,D001,P,K:,,,,,", 2, Length),
    (b"2500,U:3055501,,04032024,D002,D001,P,K:,,,,,", 2, Length),
    (b"2500U,,04032024,D002,D001,P,K:,,,,,", 2, Length),
    (b"2500:,,04032024,D002,D001,P,K:,,,,,", 2, Length),
    (b"2500u:3055501,,04032024,D002,D001,P,K:,,,,,", 2, Value),
    (b"2500K:3055501,,04032024,D002,D001,P,U:,,,,,", 2, Value),
    (b"2500:3055501,,04032024,D002,D001,P,K:,,,,,", 2, Value),
    (b"2500U3055501,,04032024,D002,D001,P,K:,,,,,", 2, Value),
    (b"2500U;3055501,,04032024,D002,D001,P,K:,,,,,", 2, Value),
    (b"2500U :3055501,,04032024,D002,D001,P,K:,,,,,", 2, Value),
    (b"2500x:U:3055501,,04032024,D002,D001,P,K:,,,,,", 2, Value), // the first colon
    (b"25003055501,,04032024,D002,D001,P,K:,,,,,", 2, Value),
    (b"3055501,,04032024,D002,D001,P", 2, Value),
    // Pos. 3, U's num1
    (b"2500U:305\x1f5501,,04032024,D002,D001,P,K:,,,,,", 3, Character),
    (b"0100U:\xbf,,,,,,K:3055501,,,,,", 3, Character),
    (b"2500U:123456789012,,04032024,D002,D001,P,K:,,,,,", 3, Length),
    (b"0100U:12345678901x,,,,,,K:,,,,,", 3, Length),
    (b"2500U:305550a,,04032024,D002,D001,P,K:,,,,,", 3, Value),
    (b"2500U: 3055501,,04032024,D002,D001,P,K:,,,,,", 3, Value),
    (b"2500U::3055501,,04032024,D002,D001,P,K:,,,,,", 3, Value),
    (b"0100U:U:3055501,,,,,,K:,,,,,", 3, Value),
    (b"2500U:,,04032024,D002,D001,P,K:,,,,,", 3, Value),       // no whole report
    (b"2500U:,3055509,04032024,D002,D001,P,K:,,,,,", 3, Value),
    (b"2599U:,,,,,,K:3055501,,04032024,D002,D001,P", 3, Value),
    (b"2500U:,,,,,,K:,,,,,", 3, Value),
    (b"2500U:", 3, Value),
    // Pos. 5, U's num2
    (b"2500U:3055500,305550\x08,04032024,D002,D001,P,K:,,,,,", 5, Character),
    (b"2500U:3055500,123456789012,04032024,D002,D001,P,K:,,,,,", 5, Length),
    (b"2500U:3055500,305550x,04032024,D002,D001,P,K:,,,,,", 5, Value),
    (b"2500U:3055500,305559,04032024,D002,D001,P,K:,,,,,", 5, Value),
    (b"0100U:3055501,3055509,,,,,K:,,,,,", 5, Value),
    (b"0100U:,3055509,,,,,K:3055501,,,,,", 5, Value),          // alone
    // Pos. 7, U's porting date
    (b"2500U:3055501,,0403202\x81,D002,D001,P,K:,,,,,", 7, Character),
    (b"2500U:3055501,,4032024,D002,D001,P,K:,,,,,", 7, Length),
    (b"0100U:3055501,,040320241,,,,K:,,,,,", 7, Length),
    (b"2500U:3055501,,31042024,D002,D001,P,K:,,,,,", 7, Date),
    (b"0100U:3055501,,2024-3-4,,,,K:,,,,,", 7, Date),
    (b"2500U:3055501,,,D002,D001,P,K:,,,,,", 7, Value),        // no whole report
    (b"2500U:3055501", 7, Value),
    // Pos. 9, U's gaining network
    (b"2500U:3055501,,04032024,\x00\x00\x00\x00,D001,P,K:,,,,,", 9, Character),
    (b"2500U:3055501,,04032024,D2,D001,P,K:,,,,,", 9, Length),
    (b"0100U:3055501,,,D00002,,,K:,,,,,", 9, Length),
    (b"2500U:3055501,,04032024,DD02,D001,P,K:,,,,,", 9, Code),
    (b"0100U:3055501,,,D00B,,,K:,,,,,", 9, Code),
    // Pos. 11, U's losing network
    (b"2500U:3055501,,04032024,D002,D001\x9f,P,K:,,,,,", 11, Character),
    (b"2500U:3055501,,04032024,D002,1,P,K:,,,,,", 11, Length),
    (b"0100U:3055501,,,,D001D001,,K:,,,,,", 11, Length),
    (b"2500U:3055501,,04032024,D002,D0O1,P,K:,,,,,", 11, Code),
    (b"0100U:3055501,,,,d001,,K:,,,,,", 11, Code),
    (b"2500U:3055501,,04032024,D002,,P,K:,,,,,", 11, Value),   // no whole report
    (b"2500U:3055501,,04032024,,,L,K:,,,,,", 11, Value),
    (b"2500U:3055501,,04032024", 11, Value),
    // Pos. 13, U's status
    (b"2500U:3055501,,04032024,D002,D001,\x01,K:,,,,,", 13, Character),
    (b"2500U:3055501,,04032024,D002,D001,PL,K:,,,,,", 13, Length),
    (b"2500U:3055501,,04032024,D002,D001,PK:,,,,,", 13, Length),
    (b"0100U:3055501,,,,,  ,K:,,,,,", 13, Length),
    // the second example of 4.7.9 has one comma fewer than the table of 4.7.8
    (b"6000U:,,,,,K:3012345000,3012345999,12042004,D001,D009,L", 13, Length),
    (b"2500U:3055501,,04032024,D002,D001,X,K:,,,,,", 13, Value),
    (b"0100U:3055501,,,,,l,K:,,,,,", 13, Value),
    (b"2500U:3055501,,04032024,D002,D001,,K:,,,,,", 13, Value), // no whole report
    (b"2500U:3055501,,04032024,,D001,,K:,,,,,", 13, Value),
    (b"2500U:3055501,,04032024,,D001,P,K:,,,,,", 13, Value),   // goes nowhere
    (b"2500U:3055501,,04032024,,D001,L,K:,,,,,", 13, Value),
    (b"2500U:3055501,,04032024,D002,D001", 13, Value),
    // Pos. 15, `K:`
    (b"2500U:3055501,,04032024,D002,D001,P,K\x00,,,,,", 15, Character),
    (b"2500U:3055501,,04032024,D002,D001,P,\x0c:,,,,,", 15, Character),
    (b"2500U:3055501,,04032024,D002,D001,P,,,,,,", 15, Length),
    (b"2500U:3055501,,04032024,D002,D001,P,,K:,,,,,", 15, Length),
    (b"2500U:3055501,,04032024,D002,D001,P,K,,,,,", 15, Length),
    (b"2500U:3055501,,04032024,D002,D001,P,", 15, Length),
    (b"2500U:3055501,,04032024,D002,D001,P", 15, Length),
    (b"0100U:", 15, Length),
    (b"0100U:,,,,,", 15, Length),
    (b"2500U:3055501,,04032024,D002,D001,P,k:,,,,,", 15, Value),
    (b"2500U:3055501,,04032024,D002,D001,P,U:,,,,,", 15, Value),
    (b"2500U:3055501,,04032024,D002,D001,P, K:,,,,,", 15, Value),
    (b"2500U:3055501,,04032024,D002,D001,P,3055501,,,,,", 15, Value),
    // Pos. 16, K's num1
    (b"2500U:3055501,,04032024,D002,D001,P,K:305550\xb1,,,,,", 16, Character),
    (b"2500U:3055501,,04032024,D002,D001,P,K:123456789012,,,,,", 16, Length),
    (b"2500U:3055501,,04032024,D002,D001,P,K:x,,,,,", 16, Value),
    (b"2500U:3055501,,04032024,D002,D001,P,K: ,,,,,", 16, Value),
    (b"2500U:3055501,,04032024,D002,D001,P,K:K:3055501,,,,,", 16, Value),
    (b"6000U:,,,,,,K:,,12042004,D001,D009,L", 16, Value),      // no num1 in either part
    (b"6000U:,,,,,,K:,12399,12042004,D001,D009,L", 16, Value),
    (b"2400U:,,04032024,D002,D001,P,K:,,,,,", 16, Value),
    (b"2600U:,,,,,,K:,,,,,", 16, Value),
    (b"0100U:,,,,,,K:", 16, Value),
    // Pos. 18, K's num2
    (b"0100U:3055501,,,,,,K:3055500,3055\x7f09,,,,", 18, Character),
    (b"0100U:3055501,,,,,,K:3055500,305550000009,,,,", 18, Length),
    (b"0100U:3055501,,,,,,K:3055500,305550 ,,,,", 18, Value),
    (b"0100U:3055501,,,,,,K:3055500,305559,,,,", 18, Value),
    (b"2500U:3055501,,04032024,D002,D001,P,K:3055501,3055509,,,,", 18, Value),
    (b"0100U:3055501,,04032024,,,,K:,3055509,,,,", 18, Value), // alone
    // Pos. 20, K's porting date
    (b"0100U:3055501,,,,,,K:,,0403\x002024,,,", 20, Character),
    (b"0100U:3055501,,,,,,K:,,0,,,", 20, Length),
    (b"2500U:3055501,,04032024,D002,D001,P,K:,,004032024,,,", 20, Length),
    (b"0100U:3055501,,,,,,K:,,29021999,,,", 20, Date),
    (b"2500U:3055501,,04032024,D002,D001,P,K:,,04032O24,,,", 20, Date),
    // Pos. 22, K's gaining network
    (b"0100U:3055501,,,,,,K:,,,D\x1b02,,", 22, Character),
    (b"0100U:3055501,,,,,,K:,,,D,,", 22, Length),
    (b"2500U:3055501,,04032024,D002,D001,P,K:,,, D002,,", 22, Length),
    (b"0100U:3055501,,,,,,K:,,,D 02,,", 22, Code),
    (b"2500U:3055501,,04032024,D002,D001,P,K:,,,D00B,,", 22, Code),
    // Pos. 24, K's losing network
    (b"0100U:3055501,,,,,,K:,,,,\xa0001,", 24, Character),
    (b"0100U:3055501,,,,,,K:,,,,D0010,", 24, Length),
    (b"0100U:3055501,,,,,,K:,,,,P", 24, Length),
    (b"0100U:3055501,,,,,,K:,,,,001D,", 24, Code),
    // Pos. 26, K's status
    (b"0100U:3055501,,,,,,K:,,,,,\x0e", 26, Character),
    (b"0100U:3055501,,,,,,K:,,,,,P,\x00", 26, Character),
    (b"0100U:3055501,,,,,,K:,,,,,PP", 26, Length),
    (b"0100U:3055501,,,,,,K:,,,,,P,", 26, Length),
    (b"0100U:3055501,,,,,,K:,,,,,\n\n", 26, Length),
    (b"0100U:3055501,,,,,,K:,,,,,0", 26, Value),
    (b"0100U:3055501,,,,,,K:,,,,,,", 26, Value),
    (b"2500U:3055501,,04032024,D002,D001,P,K:,,,,,\n", 26, Value),
    // Pos. 17, 19, 21, 23, 25: commas that are missing
    (b"2500U:3055501,,04032024,D002,D001,P,K:", 17, Length),
    (b"6000U:,,,,,,K:3055501", 17, Length),
    (b"2500U:3055501,,04032024,D002,D001,P,K:,", 19, Length),
    (b"6000U:,,,,,,K:3055500,3055509", 19, Length),
    (b"2500U:3055501,,04032024,D002,D001,P,K:,,", 21, Length),
    (b"6000U:,,,,,,K:3055501,,04032024", 21, Length),
    (b"2500U:3055501,,04032024,D002,D001,P,K:,,,", 23, Length),
    (b"6000U:,,,,,,K:3055501,,,D002", 23, Length),
    (b"2500U:3055501,,04032024,D002,D001,P,K:,,,,", 25, Length),
    (b"6000U:,,,,,,K:3055501,,04032024,D002,D001", 25, Length),
];

#[rustfmt::skip]
/// The same without a CR: Pos. 27, and what comes before it.
const UNENDED_CORRECTIONS: &[WrongLine] = &[
    (b"2500U:3055501,,04032024,D002,D001,P,K:,,,,,", 27, Length),
    (b"6000U:,,,,,,K:3012345000,3012345999,12042004,D001,D009,L", 27, Length),
    (b"6000U:,,,,,,K:3012345000,3012345999,12042004,D001,D009,LL", 26, Length),
    (b"2500U:3055501,,04032024,D002,D001,P,K:,,,,,\n", 26, Value),
    (b"2500U:3055501,,04032024,D002,D001,P,K:,,,,", 25, Length),
    (b"2500U:3055501,,04032024,D002,D001,P,K:", 17, Length),
    (b"2500U:3055501,,04032024,D002,D001,P,K", 15, Length),
    (b"2500U:3055501,,0403", 7, Length),
    (b"2500U:3055501,", 7, Value),
    (b"2500U", 2, Length),
    (b"25", 1, Length),
    (b"Zeilenanzahl", 1, Value),
    (b"\x1a", 1, Character),
];

#[rustfmt::skip]
/// Request record (4.5.1).
const REQUESTS: &[WrongLine] = &[
    // Pos. 1, network code
    (b"D4\x006,,", 1, Character),
    (b"D456\x7f,,", 1, Character),
    (b"", 1, Length),
    (b",,", 1, Length),
    (b",01041998,", 1, Length),
    (b"D45,,", 1, Length),
    (b"D4567,,", 1, Length),
    (b"\nD456,,", 1, Length),
    (b"D456;01041998;", 1, Length),
    (b"Zeilenanzahl:1,", 1, Length),
    (b"D45A,,", 1, Code),
    (b"d456,,", 1, Code),
    (b" 456,,", 1, Code),
    (b"D45A", 1, Code),
    // Pos. 2, a comma that is missing
    (b"D456", 2, Length),
    // Pos. 3, date
    (b"D987,0104\x80998,", 3, Character),
    (b"D987,1041998,", 3, Length),
    (b"D987,010419980,", 3, Length),
    (b"D456, ,", 3, Length),
    (b"D456,.", 3, Length),                                    // 4.5.1, as printed
    (b"D987,31041998,", 3, Date),
    (b"D987,01041997,", 3, Date),
    (b"D987,01.04.98,", 3, Date),
    (b"D987,31041998", 3, Date),
    // Pos. 4, a comma that is missing
    (b"D456,", 4, Length),
    (b"D987,01041998", 4, Length),
    // Pos. 5, where the record ends
    (b"D456,,\x00", 5, Character),
    (b"D987,01041998,,\xbf", 5, Character),
    (b"D456,,,", 5, Length),
    (b"D456,, ", 5, Length),
    (b"D987,01041998,\n", 5, Length),
    (b"D987,,01041998", 5, Length),
];

#[rustfmt::skip]
/// The same without a CR.
const UNENDED_REQUESTS: &[WrongLine] = &[
    (b"", 1, Length),
    (b"D45", 1, Length),
    (b"D456", 2, Length),
    (b"D987,0104", 3, Length),
    (b"D987,01041998", 4, Length),
    (b"D456,,", 5, Length),
    (b"D987,01041998,", 5, Length),
    (b"D456,,\n", 5, Length),
    (b"D456,,\x1a", 5, Character),
];

/// A whole file of a kind, the place of its first faulty record, the "Pos.", and the cause.
pub type WrongFile = (FileKind, &'static [u8], usize, usize, Cause);

#[rustfmt::skip]
/// Whole files: closing records, bytes behind the end, line ends.
pub const WRONG_FILES: &[WrongFile] = &[
    // the closing record is missing
    (Default, b"", 0, 0, Closing),
    (Response, b"", 0, 0, Closing),
    (Correction, b"", 0, 0, Closing),
    (Default, b"7,,01011998,,D001,Z\r", 1, 0, Closing),
    (Response, b"7,,01011998,,D001,Z\r8,,01011998,,D001,Z\r", 2, 0, Closing),
    (Correction, b"0000U:7,,,,,,K:,,,,,\r", 1, 0, Closing),
    // its count disagrees
    (Default, b"Zeilenanzahl:0,\r", 0, 0, Closing),
    (Default, b"Zeilenanzahl:2,\r", 0, 0, Closing),
    (Default, b"7,,01011998,,D001,Z\rZeilenanzahl:1,\r", 1, 0, Closing),
    (Response, b"7,,01011998,,D001,Z\rZeilenanzahl:3,\r", 1, 0, Closing),
    (Correction, b"0000U:7,,,,,,K:,,,,,\rZeilenanzahl:12,\r", 1, 0, Closing),
    (Default, b"Zeilenanzahl:2,\r7,,01011998,,D001,Z\r", 0, 0, Closing),
    // it is not as it is written
    (Default, b"7,,01011998,,D001,Z\rZeilenanzahl:02,\r", 1, 0, Closing),
    (Correction, b"Zeilenanzahl:01,\r", 0, 0, Closing),
    (Default, b"7,,01011998,,D001,Z\rZeilenanzahl:2,", 1, 0, Closing),
    (Correction, b"0000U:7,,,,,,K:,,,,,\rZeilenanzahl:2,", 1, 0, Closing),
    (Default, b"7,,01011998,,D001,Z\rZeilenanzahl:2,\n", 1, 0, Closing),
    (Default, b"Zeilenanzahl:1\r", 0, 0, Closing),
    (Default, b"Zeilenanzahl: 1,\r", 0, 0, Closing),
    (Default, b"Zeilenanzahl:+1,\r", 0, 0, Closing),
    (Default, b"Zeilenanzahl:1, \r", 0, 0, Closing),
    (Default, b"Zeilenanzahl:\x001,\r", 0, 0, Closing),
    (Default, b"Zeilenanzahl:\r", 0, 0, Closing),
    (Correction, b"Zeilenanzahl:", 0, 0, Closing),
    // it does not begin as it is written: a line like any other
    (Default, b"7,,01011998,,D001,Z\rzeilenanzahl:2,\r", 1, 1, Length),
    (Correction, b"0000U:7,,,,,,K:,,,,,\rzeilenanzahl:2,\r", 1, 1, Value),
    (Response, b"7,,01011998,,D001,Z\rZeilen\r", 1, 1, Value),
    // bytes behind it
    (Default, b"Zeilenanzahl:1,\r\x1a", 1, 0, After),
    (Default, b"Zeilenanzahl:1,\rZeilenanzahl:1,\r", 1, 0, After),
    (Default, b"7,,01011998,,D001,Z\rZeilenanzahl:2,\r\n", 2, 0, After),
    (Response, b"7,,01011998,,D001,Z\rZeilenanzahl:2,\r\r", 2, 0, After),
    (Default, b"7,,01011998,,D001,Z\rZeilenanzahl:2,\r7,,01011998,,D001,Z\rZeilenanzahl:2,\r", 2, 0, After),
    (Correction, b"0000U:7,,,,,,K:,,,,,\rZeilenanzahl:2,\r0000U:7,,,,,,K:,,,,,\r", 2, 0, After),
    // a faulty record before a wrong closing record and bytes behind it
    (Default, b"x\rZeilenanzahl:7,\r\x00", 0, 1, Value),
    (Default, b"7,,01011998,,D001,Z\r7,,01011998,,D001,\rx\rZeilenanzahl:9,\r", 1, 11, Length),
    // a blank line
    (Default, b"7,,01011998,,D001,Z\r\rZeilenanzahl:3,\r", 1, 1, Length),
    (Correction, b"\rZeilenanzahl:2,\r", 0, 1, Length),
    // CR LF for CR
    (Default, b"Zeilenanzahl:1,\r\n", 1, 0, After),
    (Default, b"7,,01011998,,D001,Z\r\nZeilenanzahl:2,\r\n", 1, 1, Length),
    (Response, b"7,,01011998,,D001,Z\r\n8,,01011998,,D001,Z\r\nZeilenanzahl:3,\r\n", 1, 1, Value),
    (Correction, b"0000U:7,,,,,,K:,,,,,\r\nZeilenanzahl:2,\r\n", 1, 1, Value),
    (Correction, b"0000U:7,,,,,,K:,,,,,\r\n0000U:8,,,,,,K:,,,,,\r\nZeilenanzahl:3,\r\n", 1, 1, Length),
    // LF for CR
    (Default, b"Zeilenanzahl:1,\n", 0, 0, Closing),
    (Default, b"7,,01011998,,D001,Z\nZeilenanzahl:2,\n", 0, 11, Length),
    (Correction, b"0000U:7,,,,,,K:,,,,,\nZeilenanzahl:2,\n", 0, 26, Length),
    // a request file has no closing record
    (Request, b"", 0, 1, Length),
    (Request, b"\r", 0, 1, Length),
    (Request, b"\rD456,,\r", 0, 1, Length),
    (Request, b"D456,,\r\n", 1, 0, After),
    (Request, b"D456,,\r\r", 1, 0, After),
    (Request, b"D456,,\rD456,,\r", 1, 0, After),
    (Request, b"D456,,\rZeilenanzahl:2,\r", 1, 0, After),
    (Request, b"D987,01041998,\r\x00", 1, 0, After),
    (Request, b"D45A,,\r\n", 0, 1, Code),
    (Request, b"D456,\r,\r", 0, 4, Length),
    (Request, b"D456,,\n", 0, 5, Length),
];
