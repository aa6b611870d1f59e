/// The number of a refusal and the byte offset it is given at.
#[derive(Clone, Copy, Debug, PartialEq, Eq)]
pub struct Refusal {
    pub number: u8,
    pub place: usize,
}

/// The refusal numbers.
#[derive(Clone, Copy, Debug)]
#[repr(u8)]
pub enum Fault {
    EnvelopeTooLong = 64,
    NotCbor = 65,
    WrongItem = 66,
    WrongVersion = 67,
    RepeatedIdentifier = 68,
    UnlistedCommand = 69,
    UnlistedParameter = 70,
    CommandNotAllowed = 71,
    IndexTooHigh = 72,
    TooDeep = 73,
    TooManyCommands = 74,
    SignatureRejected = 80,
    EventOpen = 81,
    WrongSequenceNumber = 82,
    ComponentWithoutSlot = 83,
    TraceTooShort = 84,
    BadSlots = 85,
    BadAnswers = 86,
    RoomTooShort = 96,
    BadProgram = 97,
}

impl Fault {
    pub fn at(self, place: usize) -> Refusal {
        Refusal {
            number: self as u8,
            place,
        }
    }

    pub fn unless(self, holds: bool, place: usize) -> Result<(), Refusal> {
        if holds {
            Ok(())
        } else {
            Err(self.at(place))
        }
    }
}
