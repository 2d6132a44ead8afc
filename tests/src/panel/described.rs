//! By what a value is read: host/README.md, "What is read by what".

use second::message::{CLIENT, SERVER};
use second::refusal;

/// An accepted descriptor with its id.
#[derive(Clone, Copy)]
pub struct Described<'a> {
    pub id: &'a [u8],
    pub descriptor: &'a [u8],
    /// Whether messages were refused since, none of which may have been a newer description.
    pub kept: bool,
}

impl<'a> Described<'a> {
    pub fn new(id: &'a [u8], descriptor: &'a [u8]) -> Described<'a> {
        let kept = false;
        Described {
            id,
            descriptor,
            kept,
        }
    }
}

/// What is known of how the rows, or the state data, are described.
#[derive(Clone, Copy, Default)]
pub enum Description<'a> {
    #[default]
    NeverMet,
    Lost(Loss),
    Known(Described<'a>),
}

/// The message that lost a description, and how.
#[derive(Clone, Copy)]
pub struct Loss {
    /// Its number in the capture.
    pub message: usize,
    pub way: Way,
}

/// How a message loses both descriptions.
#[derive(Clone, Copy, PartialEq, Eq)]
pub enum Way {
    /// A T or an s whose fields are refused.
    Fields,
    /// A T or an s that its side does not know.
    OtherSide,
    InputDescriptor,
    OutputDescriptor,
    StateDescriptor,
    /// A length that is not permitted. Behind one of the server there is no value any more.
    ClientLength,
    OtherLength,
    /// Bytes behind such a length, that came after the description.
    Unread,
    /// A type that the server does not know.
    UnknownType,
    /// Any message of a side that is neither client nor server.
    UnknownSide,
}

impl Way {
    pub const ALL: [Way; 10] = [
        Way::Fields,
        Way::OtherSide,
        Way::InputDescriptor,
        Way::OutputDescriptor,
        Way::StateDescriptor,
        Way::ClientLength,
        Way::OtherLength,
        Way::Unread,
        Way::UnknownType,
        Way::UnknownSide,
    ];

    pub fn name(self) -> &'static str {
        match self {
            Way::Fields => "a T or s whose fields are refused",
            Way::OtherSide => "a T or s of a side that knows none",
            Way::InputDescriptor => "a T's input descriptor",
            Way::OutputDescriptor => "a T's output descriptor",
            Way::StateDescriptor => "an s's descriptor",
            Way::ClientLength => "a length of the client",
            Way::OtherLength => "a length of another side",
            Way::Unread => "what was not read",
            Way::UnknownType => "a type not known",
            Way::UnknownSide => "a side not known",
        }
    }

    /// How a message that is refused as a whole loses them, if it may have been a description.
    pub fn of_refused(side: u32, type_byte: u8, number: u32) -> Option<Way> {
        let describes = matches!(type_byte, b'T' | b's');
        match (number, side) {
            (refusal::BAD_LENGTH, CLIENT) => Some(Way::ClientLength),
            (refusal::BAD_LENGTH, _) => Some(Way::OtherLength),
            (refusal::UNKNOWN_TYPE, _) if describes => Some(Way::OtherSide),
            (refusal::UNKNOWN_TYPE, SERVER) => Some(Way::UnknownType),
            (refusal::UNKNOWN_TYPE, CLIENT) => None,
            (refusal::UNKNOWN_TYPE, _) => Some(Way::UnknownSide),
            _ if describes => Some(Way::Fields),
            _ => None,
        }
    }
}

impl<'a> Description<'a> {
    /// The first message that loses it counts, until it is known again.
    fn lose(&mut self, loss: Loss) {
        if !matches!(self, Description::Lost(_)) {
            *self = Description::Lost(loss);
        }
    }

    fn keep(&mut self) {
        if let Description::Known(described) = self {
            described.kept = true;
        }
    }

    /// What values are read by, or why they are not described.
    pub fn known(self) -> Result<Described<'a>, String> {
        match self {
            Description::Known(described) => Ok(described),
            Description::NeverMet => Err("as no description of it was met".into()),
            Description::Lost(loss) => Err(format!("since message {} was refused", loss.message)),
        }
    }
}

/// Both descriptions, which are lost together.
#[derive(Default)]
pub struct Descriptions<'a> {
    pub rows: Description<'a>,
    pub state: Description<'a>,
}

impl<'a> Descriptions<'a> {
    pub fn lose(&mut self, loss: Loss) {
        self.rows.lose(loss);
        self.state.lose(loss);
    }

    /// A message was refused that says by its type that it describes nothing.
    pub fn keep(&mut self) {
        self.rows.keep();
        self.state.keep();
    }

    /// Of the state data whose C names this id. Zero is "no type", which needs no s; the last s
    /// describes its own id alone.
    pub fn of_state(&self, id: &'a [u8]) -> Description<'a> {
        match self.state {
            _ if id == [0; 16] => Description::Known(Described::new(id, &[])),
            Description::Known(state) if state.id != id => Description::NeverMet,
            state => state,
        }
    }
}
