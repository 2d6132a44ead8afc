//! The fields of the ten messages by name, as R2.8 and R2.9 have them.

use super::human;
use super::texts::{self, Extent};
use second::message::{CLIENT, SERVER};
use Form::{Bits, Bytes, Code, Number, Run, Text, Uuid};

/// What a field is printed as.
enum Form {
    Number,
    Bits,
    Uuid,
    Text,
    Bytes,
    Code(&'static [(u8, &'static str)]),
    Run(&'static [Named]),
}

type Named = (&'static str, Form);

const WIDTH: usize = 18;

const PAIR: &[Named] = &[("name", Text), ("value", Text)];
const ANNOTATIONS: Named = ("annotations", Run(PAIR));
const ATTRIBUTE: &[Named] = &[("key", Number), ("value", Bytes)];
const EXTENSION: &[Named] = &[("name", Text), ANNOTATIONS];
const ERROR_SEVERITY: Form = Code(&[(0x78, "error"), (0xc8, "fatal"), (0xff, "panic")]);
const LOG_SEVERITY: Form = Code(&[
    (0x14, "debug"),
    (0x28, "info"),
    (0x3c, "notice"),
    (0x50, "warning"),
]);
const STATE: Form = Code(&[
    (0x49, "not in a transaction"),
    (0x54, "in a transaction"),
    (0x45, "in a failed transaction"),
]);
const CARDINALITY: Form = Code(&[
    (0x6e, "none"),
    (0x6f, "at most one"),
    (0x41, "one"),
    (0x6d, "many"),
    (0x4d, "at least one"),
]);

const ERROR: &[Named] = &[
    ("severity", ERROR_SEVERITY),
    ("error_code", Bits),
    ("message", Text),
    ("attributes", Run(ATTRIBUTE)),
];
const LOG: &[Named] = &[
    ("severity", LOG_SEVERITY),
    ("code", Bits),
    ("text", Text),
    ANNOTATIONS,
];
const READY: &[Named] = &[ANNOTATIONS, ("transaction_state", STATE)];
const COMPLETE: &[Named] = &[
    ANNOTATIONS,
    ("capabilities", Bits),
    ("status", Text),
    ("state_typedesc_id", Uuid),
    ("state_data", Bytes),
];
const DESCRIPTION: &[Named] = &[
    ANNOTATIONS,
    ("capabilities", Bits),
    ("result_cardinality", CARDINALITY),
    ("input_typedesc_id", Uuid),
    ("input_typedesc", Bytes),
    ("output_typedesc_id", Uuid),
    ("output_typedesc", Bytes),
];
const STATE_DESCRIPTION: &[Named] = &[("typedesc_id", Uuid), ("typedesc", Bytes)];
const DATA: &[Named] = &[("num_data", Number), ("data", Bytes)];
const PARAMETER: &[Named] = &[("name", Bytes), ("value", Bytes)];
const HANDSHAKE: &[Named] = &[
    ("major_ver", Number),
    ("minor_ver", Number),
    ("params", Run(PAIR)),
    ("extensions", Run(EXTENSION)),
];

/// A message's name and fields, or none if the side does not know the type.
fn message(side: u32, type_byte: u8) -> Option<(&'static str, &'static [Named])> {
    Some(match (side, type_byte) {
        (SERVER, b'E') => ("ErrorResponse", ERROR),
        (SERVER, b'L') => ("LogMessage", LOG),
        (SERVER, b'Z') => ("ReadyForCommand", READY),
        (SERVER, b'C') => ("CommandComplete", COMPLETE),
        (SERVER, b'T') => ("CommandDataDescription", DESCRIPTION),
        (SERVER, b's') => ("StateDataDescription", STATE_DESCRIPTION),
        (SERVER, b'D') => ("Data", DATA),
        (SERVER, b'S') => ("ParameterStatus", PARAMETER),
        (CLIENT, b'S') => ("Sync", &[]),
        (CLIENT, b'V') => ("ClientHandshake", HANDSHAKE),
        _ => return None,
    })
}

/// Who sends.
pub fn side_name(side: u32) -> String {
    match side {
        CLIENT => "client".into(),
        SERVER => "server".into(),
        _ => format!("unknown side {side}"),
    }
}

/// Side, type and name.
pub fn title(side: u32, type_byte: u8) -> String {
    let side_name = side_name(side);
    let type_name = match type_byte {
        b'!'..=b'~' => char::from(type_byte).to_string(),
        _ => format!("{type_byte:02x}"),
    };
    let name = message(side, type_byte).map_or("(unknown)", |(name, _)| name);
    format!("{side_name} {type_name} {name}")
}

/// The lines of a message's fields, from the pairs of start and length that reading it gives.
pub fn lines(side: u32, message_bytes: &[u8], words: &[u32]) -> Vec<String> {
    let (_, named) = message(side, message_bytes[0]).expect("a message that was read");
    let mut reading = Reading {
        message: message_bytes,
        pairs: words.chunks_exact(2),
        lines: Vec::new(),
    };
    reading.all(named, 1);
    assert_eq!(reading.pairs.len(), 0, "a field that belongs nowhere");
    reading.lines
}

struct Reading<'a> {
    message: &'a [u8],
    pairs: std::slice::ChunksExact<'a, u32>,
    lines: Vec<String>,
}

impl Reading<'_> {
    fn all(&mut self, named: &[Named], depth: usize) {
        for (name, form) in named {
            let pair = self.pairs.next().expect("a pair for each field");
            let content = &self.message[pair[0] as usize..][..pair[1] as usize];
            let (indent, text) = ("  ".repeat(depth), shown(form, content));
            self.lines.push(format!("{indent}{name:<WIDTH$} {text}"));
            if let Run(items) = form {
                self.items(items, number(content), depth + 1);
            }
        }
    }

    fn items(&mut self, items: &[Named], count: u64, depth: usize) {
        for index in 0..count {
            self.lines.push(format!("{}{index}:", "  ".repeat(depth)));
            self.all(items, depth + 1);
        }
    }
}

fn shown(form: &Form, content: &[u8]) -> String {
    match form {
        Number | Run(_) => number(content).to_string(),
        Bits => format!("{:0width$x}", number(content), width = 2 * content.len()),
        Uuid => texts::uuid(content),
        Text => texts::quoted(human::text(content), Extent::Cut),
        Bytes if is_printable(content) => texts::quoted(human::text(content), Extent::Cut),
        Bytes => texts::size(content.len()),
        Code(codes) => {
            let known = codes.iter().find(|(code, _)| *code == content[0]);
            let (code, words) = known.expect("an accepted code");
            format!("{words} ({code:02x})")
        }
    }
}

fn number(content: &[u8]) -> u64 {
    content
        .iter()
        .fold(0, |sum, byte| sum << 8 | u64::from(*byte))
}

/// Bytes of printable letters alone are shown as text.
fn is_printable(content: &[u8]) -> bool {
    !content.is_empty() && content.iter().all(|byte| (b' '..=b'~').contains(byte))
}
