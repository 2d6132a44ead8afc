//! All that `panel show` prints of a capture, as host/README.md says it.

use super::described::{Described, Description, Descriptions, Loss, Way};
use super::fields;
use super::joined::{Cut, Ending, Event, Message, Sides, MOST_WORDS};
use super::refused::{self, Within};
use super::seen::{self, End, Kind, Outcome};
use super::texts::{self, Extent};
use super::tree::{self, Tree};
use second::descriptor::{self, Descriptor};
use second::entry::Entry;
use second::message::SERVER;
use second::off_descriptor;
use second::refusal::{Refusal, BAD_LENGTH};
use std::collections::BTreeMap;

/// A row: by what it is read, its bytes, and how many bytes the server sent before them.
pub struct RowAt<'a> {
    pub by: Description<'a>,
    pub bytes: &'a [u8],
    pub at: usize,
}

/// All that is known of a capture.
pub struct Shown<'a> {
    pub lines: Vec<String>,
    pub messages: usize,
    pub rows: Vec<RowAt<'a>>,
    /// What came of each value, in the order of the capture.
    pub values: Vec<(Kind, Outcome)>,
    /// The names of what was met where records and sides end, for [`seen`].
    pub cuts: Vec<String>,
}

/// What is known so far.
#[derive(Default)]
struct Session<'a> {
    descriptions: Descriptions<'a>,
    messages: usize,
    rows: Vec<RowAt<'a>>,
    values: Vec<(Kind, Outcome)>,
    cuts: Vec<String>,
    refused: usize,
    unfinished: usize,
    /// For each side that is not read to its end, the message that it is not read behind.
    ended: BTreeMap<u32, usize>,
    lines: Vec<String>,
}

/// The lines and rows of a capture.
pub fn shown(sides: &Sides) -> Shown<'_> {
    let mut session = Session::default();
    let mut told = sides.told();
    for event in told.in_turn() {
        match event {
            Event::Message(message) => session.message(message),
            Event::Unread(side) => session.unread(side),
        }
    }
    session.cuts.extend(seen::ends(&told.endings));
    if let Some(cut) = &sides.cut {
        session.cut(cut);
    }
    for (side, ending) in &told.endings {
        session.end(*side, ending);
    }
    session.sum();
    Shown {
        lines: session.lines,
        messages: session.messages,
        rows: session.rows,
        values: session.values,
        cuts: session.cuts,
    }
}

fn plural(count: usize, what: &str) -> String {
    format!("{count} {what}{}", if count == 1 { "" } else { "s" })
}

impl<'a> Session<'a> {
    fn message(&mut self, message: Message<'a>) {
        self.messages += 1;
        let Message {
            side, bytes, at, ..
        } = message;
        let is_row = side == SERVER && bytes[0] == b'D' && message.read.is_ok();
        let row = match is_row {
            true => format!(", row {}", self.rows.len() + 1),
            false => String::new(),
        };
        let head = match &message.read {
            Err(refusal) if refusal.number == BAD_LENGTH => "a head of ",
            _ => "",
        };
        let (number, title) = (self.messages, fields::title(side, bytes[0]));
        let size = texts::size(bytes.len());
        self.lines.push(format!(
            "message {number}: {title}, {head}{size} at {at}{row}"
        ));
        self.cuts.extend(seen::cut(message.is_cut));
        match message.read {
            Ok(read) => self.accept(side, bytes, &read.words, at),
            Err(refusal) => self.refuse(side, bytes, refusal, at),
        }
    }

    /// Bytes behind a length that is not permitted may hide a description whenever they come.
    fn unread(&mut self, side: u32) {
        self.descriptions.lose(Loss {
            message: self.ended[&side],
            way: Way::Unread,
        });
    }

    fn cut(&mut self, cut: &Cut) {
        let Cut { whole, there, .. } = cut;
        let (what, name) = match cut.is_head {
            true => ("the head of a record", seen::END_IN_RECORD_HEAD),
            false => ("a record", seen::END_IN_RECORD),
        };
        self.unfinished += 1;
        self.cuts.push(name.into());
        self.lines.push(format!(
            "the capture ends inside {what}: of its {whole} bytes {there} are there"
        ));
    }

    fn end(&mut self, side: u32, ending: &Ending) {
        let line = match ending {
            Ending::Unfinished {
                type_byte,
                at,
                held,
                lacking,
            } => {
                self.unfinished += 1;
                let of_head = match ending.kind() {
                    End::InHead => " of its head",
                    _ => "",
                };
                let title = fields::title(side, *type_byte);
                let (held, lacking) = (texts::size(*held), texts::size(*lacking));
                format!("unfinished: {title}, {held} held at {at}, {lacking}{of_head} lacking")
            }
            Ending::NotRead(bytes) => {
                let (bytes, side_name) = (texts::size(*bytes), fields::side_name(side));
                let message = self.ended[&side];
                format!("not read: {bytes} from the {side_name}, behind message {message}")
            }
        };
        self.lines.push(line);
    }

    fn sum(&mut self) {
        let messages = plural(self.messages, "message");
        let (rows, refused) = (plural(self.rows.len(), "row"), self.refused);
        let unfinished = match self.unfinished {
            0 => String::new(),
            count => format!(", {count} unfinished"),
        };
        self.lines
            .push(format!("{messages}, {rows}, {refused} refused{unfinished}"));
    }

    /// A message that was read counts as refused if a part of it is.
    fn accept(&mut self, side: u32, message: &'a [u8], words: &[u32], at: usize) {
        self.lines.extend(fields::lines(side, message, words));
        let before = self.lines.len();
        if side == SERVER {
            self.parts(message, words, at);
        }
        let part_refused = |line: &String| line.starts_with("    refused with ");
        if self.lines[before..].iter().any(part_refused) {
            self.refused += 1;
        }
    }

    fn refuse(&mut self, side: u32, message: &'a [u8], refusal: Refusal, at: usize) {
        self.refused += 1;
        if refusal.number == BAD_LENGTH {
            self.ended.insert(side, self.messages);
        }
        let within = Within {
            what: "message",
            bytes: message,
            side,
            at,
        };
        self.lines.extend(refused::lines(refusal, &within));
        match Way::of_refused(side, message[0], refusal.number) {
            Some(way) => self.lose(way),
            None => self.descriptions.keep(),
        }
    }

    /// The current message loses both descriptions.
    fn lose(&mut self, way: Way) {
        let message = self.messages;
        self.descriptions.lose(Loss { message, way });
    }

    /// Descriptors and values of a message that was read.
    fn parts(&mut self, message: &'a [u8], words: &[u32], at: usize) {
        // The last fields, which no run comes after: 1 is the last.
        let field = |back: usize| {
            let pair = &words[words.len() - 2 * back..];
            let (start, length) = (pair[0] as usize, pair[1] as usize);
            (&message[start..start + length], at + start)
        };
        match message[0] {
            b'T' => {
                let input = self.describe("input descriptor", field(4).0, field(3));
                let output = self.describe("output descriptor", field(2).0, field(1));
                self.take_rows(input, output);
            }
            b's' => match self.describe("state descriptor", field(2).0, field(1)) {
                Some(state) => self.descriptions.state = Description::Known(state),
                None => self.lose(Way::StateDescriptor),
            },
            b'C' => {
                let by = self.descriptions.of_state(field(2).0);
                self.value(Kind::State, by, field(1));
            }
            b'D' => {
                let (by, (bytes, at)) = (self.descriptions.rows, field(1));
                self.rows.push(RowAt { by, bytes, at });
                self.value(Kind::Row, by, (bytes, at));
            }
            _ => {}
        }
    }

    /// A T counts as a whole: with either descriptor refused it describes nothing.
    fn take_rows(&mut self, input: Option<Described<'a>>, output: Option<Described<'a>>) {
        match (input, output) {
            (Some(_), Some(output)) => self.descriptions.rows = Description::Known(output),
            (None, _) => self.lose(Way::InputDescriptor),
            (_, None) => self.lose(Way::OutputDescriptor),
        }
    }

    /// Compiles and shows a descriptor; `None` if it is refused.
    fn describe(
        &mut self,
        what: &str,
        id: &'a [u8],
        field: (&'a [u8], usize),
    ) -> Option<Described<'a>> {
        let (descriptor, at) = field;
        let head = format!("  {what}: {}", texts::size(descriptor.len()));
        let compiled = descriptor::compile(descriptor, id, MOST_WORDS);
        let read = compiled.and_then(|plan| Ok((plan.len(), descriptor::read(descriptor, id)?)));
        match &read {
            Err(refusal) => {
                let within = Within::of_server(what, descriptor, at);
                self.lines.extend(refused::lines(*refusal, &within));
            }
            Ok((_, Descriptor::NoType)) => self.lines.push(format!("{head}, no type")),
            Ok((words, Descriptor::Typed { blocks, root })) => {
                self.lines.push(format!("{head}, a plan of {words} words"));
                let lines = tree::plan(&blocks.list, *root);
                self.lines
                    .extend(lines.iter().map(|line| format!("    {line}")));
            }
        }
        read.is_ok().then_some(Described::new(id, descriptor))
    }

    fn value(&mut self, kind: Kind, by: Description, field: (&'a [u8], usize)) {
        let ((bytes, at), what) = (field, kind.name());
        let tree = by.known().map(|by| tree_lines(by, bytes));
        self.values.push((kind, Outcome::of(by, &tree)));
        match tree {
            Err(why) => {
                self.lines.push(format!("  {what}: not described, {why}"));
                let bytes = texts::hex(bytes, Extent::Cut);
                self.lines.push(format!("    {bytes}"));
            }
            Ok(Err(refusal)) => {
                let within = Within::of_server(what, bytes, at);
                self.lines.extend(refused::lines(refusal, &within));
            }
            Ok(Ok(tree)) => {
                let none = if tree.is_empty() { ", no type" } else { "" };
                self.lines
                    .push(format!("  {what}: {}{none}", texts::size(bytes.len())));
                self.lines
                    .extend(tree.iter().map(|line| format!("    {line}")));
            }
        }
    }
}

/// The lines of a value by its description, by the rules off the descriptor.
fn tree_lines(by: Described, value: &[u8]) -> Result<Vec<String>, Refusal> {
    let entries = listed(by, value)?;
    Ok(match descriptor::read(by.descriptor, by.id)? {
        Descriptor::NoType => Vec::new(),
        Descriptor::Typed { blocks, root } => {
            Tree::lines(&blocks.list, root, value, &entries, &[], Extent::Cut)
        }
    })
}

/// The entries of a value, if there are not too many for a host to list.
pub fn listed(by: Described, value: &[u8]) -> Result<Vec<Entry>, Refusal> {
    let words = off_descriptor::run(by.descriptor, by.id, value, MOST_WORDS)?;
    Ok(Entry::all(&words).expect("five words an entry"))
}
