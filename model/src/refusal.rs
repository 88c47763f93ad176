//! The causes for which a request, a test, an image, an input, the question for a chain, an import or the
//! older form of an image is turned down. Each has the number of document 01, from 18 on that of document
//! 02; the number 0 stands for done or accepted.

/// A cause of refusal. The discriminant is the number that is given to the caller.
#[derive(Clone, Copy, Debug, PartialEq, Eq)]
#[repr(u8)]
pub enum Refusal {
    TableNotSound = 1,
    FieldOutOfRange = 2,
    ActorNotRunning = 3,
    SlotEmpty = 4,
    TargetDead = 5,
    RightAbsent = 6,
    TargetPassive = 7,
    DestroyOfActor = 8,
    OutsideStock = 9,
    MembersNotAlive = 10,
    ListInvalid = 11,
    RightNotListed = 12,
    MemberNamedOutside = 13,
    ImageLength = 14,
    ImageVersion = 15,
    BufferTooShort = 16,
    InputLength = 17,
    ObjectNotBornNonMember = 18,
    ObjectOutsideBound = 19,
    ImportLength = 20,
    ImportVersion = 21,
    ImportValue = 22,
    /// Some maker is not 64, which the older form cannot hold.
    MakerRecorded = 23,
    /// Reclaim is for the dead.
    TargetAlive = 24,
}

impl Refusal {
    /// The number of the cause.
    pub fn number(self) -> u8 {
        self as u8
    }
}

/// The reply for an outcome: 0 for success, else the number of the cause.
pub fn reply_number<T>(outcome: &Result<T, Refusal>) -> u8 {
    match outcome {
        Ok(_) => 0,
        Err(refusal) => refusal.number(),
    }
}
