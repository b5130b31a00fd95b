//! The tables: name, how the base file is damaged, at which line the reader stops, and why.

use super::{Case, Edit, Edit::*};

/// Why the reader stops.
#[derive(Clone, Copy, Debug, PartialEq, Eq, PartialOrd, Ord)]
pub enum Message {
    UnknownKind,
    InputEnds,
    Form,
    TooMuch,
    NotThere,
    CallBefore,
    Checksum,
    NumberOfCalls,
    TextAfter,
}

use Message::*;

impl Message {
    pub fn text(self) -> &'static str {
        match self {
            UnknownKind => "unknown kind of line",
            InputEnds => "the input ends here",
            Form => "not of the form that its kind has",
            TooMuch => "more storage or keys than this program holds",
            NotThere => "an address or key number that is not there",
            CallBefore => "a call before its storage and record",
            Checksum => "wrong checksum: the text is damaged",
            NumberOfCalls => "wrong number of calls at the end",
            TextAfter => "text after the end",
        }
    }
}

type Row = (&'static str, &'static [Edit], usize, Message);

/// The first character is no kind, or the input ends; this is found before the form.
const KIND_AND_END: [Row; 14] = [
    ("kind-upper-case", &[Put(9, 0, "A")], 9, UnknownKind),
    ("kind-space-first", &[Add(4, 0, " ")], 4, UnknownKind),
    ("kind-empty-line", &[Line(10, "")], 10, UnknownKind),
    ("kind-digit", &[Put(14, 0, "0")], 14, UnknownKind),
    ("kind-last-character", &[Put(17, 0, "x"), Cut(17, 1)], 17, UnknownKind),
    ("ends-empty-file", &[Cut(1, 0)], 1, InputEnds),
    ("ends-in-comment", &[Cut(1, 40)], 1, InputEnds),
    ("ends-after-kind", &[Cut(3, 1)], 3, InputEnds),
    ("ends-in-record-before-line-feed", &[Cut(8, 190)], 8, InputEnds),
    ("ends-in-call", &[Cut(11, 9)], 11, InputEnds),
    ("ends-in-line-of-wrong-form", &[Put(13, 1, "-"), Cut(13, 12)], 13, InputEnds),
    ("ends-before-end-line", &[Cut(17, 0)], 17, InputEnds),
    ("ends-before-last-line-feed", &[Cut(17, 19)], 17, InputEnds),
    ("ends-end-line-a-digit-short", &[Drop(17, 18, 1)], 17, InputEnds),
];

/// Separators, line feeds, digits.
const FORM: [Row; 13] = [
    ("form-separator", &[Put(2, 10, "-")], 2, Form),
    ("form-separator-after-kind", &[Put(16, 1, "0")], 16, Form),
    ("form-upper-case-digit", &[Put(4, 9, "F")], 4, Form),
    ("form-not-a-digit", &[Put(7, 12, "g")], 7, Form),
    ("form-not-a-digit-in-byte", &[Put(14, 10, "/")], 14, Form),
    ("form-not-a-digit-in-checksum", &[Put(11, 16, ":")], 11, Form),
    ("form-line-a-digit-short", &[Drop(5, 16, 1)], 5, Form),
    ("form-line-a-digit-long", &[Add(6, 17, "0")], 6, Form),
    ("form-carriage-return", &[Add(3, 17, "\r")], 3, Form),
    ("form-comment-long", &[Add(1, 79, "x")], 1, Form),
    ("form-comment-short", &[Drop(12, 40, 1)], 12, Form),
    ("form-record-a-word-short", &[Drop(8, 100, 9)], 8, Form),
    ("form-end-line-feed", &[Put(17, 19, " ")], 17, Form),
];

/// Sizes, addresses and key numbers. The limits are those without an argument: 4,194,304 bytes, 8,448 keys.
const SIZES_AND_PLACES: [Row; 13] = [
    ("size-one-byte-too-many", &[Put(2, 2, "00400001")], 2, TooMuch),
    ("size-one-key-too-many", &[Put(2, 11, "00002101")], 2, TooMuch),
    ("size-largest-number", &[Put(13, 2, "ffffffff")], 13, TooMuch),
    ("place-word-at-end", &[Put(3, 2, "004000")], 3, NotThere),
    ("place-word-over-end", &[Put(3, 2, "003ffd")], 3, NotThere),
    ("place-byte-at-end", &[Put(14, 2, "000803")], 14, NotThere),
    ("place-keys-at-end", &[Put(7, 2, "000008")], 7, NotThere),
    ("place-keys-over-end", &[Put(7, 2, "000005")], 7, NotThere),
    ("place-key-at-end", &[Put(15, 2, "000003")], 15, NotThere),
    ("place-word-before-storage", &[Without(2, 2)], 2, NotThere),
    ("place-byte-before-storage", &[Line(2, "b 000000 00")], 2, NotThere),
    ("place-keys-before-storage", &[Line(1, "q 000000 00000000")], 1, NotThere),
    ("place-key-before-storage", &[Line(1, "k 000000 00")], 1, NotThere),
];

/// A digit damaged in each kind of line, and lines that are missing or doubled; found at the next `a` or `e`.
const SUMS: [Row; 20] = [
    ("sum-comment", &[Put(1, 2, "T")], 9, Checksum),
    ("sum-most-storage-and-keys", &[Put(2, 2, "00400000 00002100")], 9, Checksum),
    ("sum-storage-size", &[Digit(2, 9)], 9, Checksum),
    ("sum-key-count", &[Digit(2, 18)], 9, Checksum),
    ("sum-word-address", &[Digit(4, 7)], 9, Checksum),
    ("sum-word", &[Digit(6, 16)], 9, Checksum),
    ("sum-keys", &[Digit(7, 14)], 9, Checksum),
    ("sum-record-first-word", &[Digit(8, 9)], 9, Checksum),
    ("sum-record-last-word", &[Digit(10, 189)], 11, Checksum),
    ("sum-byte", &[Digit(14, 9)], 16, Checksum),
    ("sum-key", &[Digit(15, 10)], 16, Checksum),
    ("sum-first-halfword", &[Digit(9, 5)], 9, Checksum),
    ("sum-flag", &[Digit(11, 7)], 11, Checksum),
    ("sum-of-call", &[Digit(11, 16)], 11, Checksum),
    ("sum-number-of-calls", &[Digit(17, 9)], 17, Checksum),
    ("sum-of-end", &[Digit(17, 11)], 17, Checksum),
    ("sum-line-missing", &[Without(5, 5)], 8, Checksum),
    ("sum-line-doubled", &[Line(4, "w 000400 00000800")], 10, Checksum),
    ("sum-call-missing", &[Without(11, 11)], 15, Checksum),
    ("sum-call-without-storage-and-record", &[Without(1, 8)], 1, Checksum),
];

const AFTER_THE_END: [Row; 3] = [
    ("after-end-line-feed", &[After("\n")], 18, TextAfter),
    ("after-end-comment", &[After("# more\n")], 18, TextAfter),
    ("after-end-second-end", &[After("e 00000000 00000000\n")], 18, TextAfter),
];

/// These have right checksums.
const RIGHT_SUMS: [Row; 8] = [
    ("form-flag", &[Put(9, 7, "2")], 9, Form),
    ("before-all", &[Line(1, "a 0834 0 cccccccc")], 1, CallBefore),
    ("before-record", &[Without(8, 8)], 8, CallBefore),
    ("before-storage", &[Without(2, 7)], 3, CallBefore),
    ("number-one-more", &[Put(17, 2, "00000004")], 17, NumberOfCalls),
    ("number-one-fewer", &[Put(17, 2, "00000002")], 17, NumberOfCalls),
    ("number-without-calls", &[Without(2, 16)], 2, NumberOfCalls),
    ("number-large", &[Put(17, 2, "80000003")], 17, NumberOfCalls),
];

pub fn all() -> Vec<Case> {
    let damaged = [&KIND_AND_END[..], &FORM, &SIZES_AND_PLACES, &SUMS, &AFTER_THE_END].concat();
    let case = |sums_right: bool| {
        move |(name, edits, line, message): Row| Case { name, edits, sums_right, stopped: (line, message) }
    };
    damaged.into_iter().map(case(false)).chain(RIGHT_SUMS.into_iter().map(case(true))).collect()
}
