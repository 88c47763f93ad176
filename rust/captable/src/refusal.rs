//! Why a call was turned down. Each cause has document 01's number, from 18 on document 02's.

use core::error::Error;
use core::fmt;

macro_rules! refusals {
    ($(#[$about:meta])* $name:ident { $($(#[$doc:meta])* $cause:ident = $number:literal, $text:literal;)* }) => {
        $(#[$about])*
        #[derive(Clone, Copy, Debug, PartialEq, Eq)]
        #[repr(u8)]
        pub enum $name {
            $($(#[$doc])* $cause = $number,)*
        }

        impl $name {
            /// The number of the cause: document 01's, from 18 on document 02's.
            #[must_use]
            pub const fn number(self) -> u8 {
                self as u8
            }

            /// The answer of a call by its number: 0 is success.
            pub(crate) fn check(number: u8) -> Result<(), $name> {
                match number {
                    0 => Ok(()),
                    $($number => Err($name::$cause),)*
                    other => unreachable!("no answer of this call has the number {other}"),
                }
            }
        }

        impl fmt::Display for $name {
            fn fmt(&self, out: &mut fmt::Formatter<'_>) -> fmt::Result {
                let text = match self {
                    $($name::$cause => $text,)*
                };
                write!(out, "refused {}: {text}", self.number())
            }
        }

        impl Error for $name {}
    };
}

refusals! {
    /// Why a request was refused, in the order of the checks, but that [`TargetAlive`](StepRefusal::TargetAlive) is
    /// checked between 4 and 6. The table is as it was.
    StepRefusal {
        /// The table is not sound.
        TableUnsound = 1, "the table is not sound";
        /// A field is out of range, a list is too long, or the bytes are no request.
        FieldInvalid = 2, "a field is out of range";
        /// The actor is not an alive active object.
        ActorUnfit = 3, "the actor is not alive and active";
        /// The slot that is used, `t`, is empty. One that is copied may be empty: nothing is copied then.
        SlotEmpty = 4, "the slot is empty";
        /// The target is dead. Not of a reclaim, which is for a dead one.
        TargetDead = 5, "the target is dead";
        /// The slot lacks the right that the request needs.
        RightAbsent = 6, "the right is absent";
        /// A send's target is passive.
        TargetPassive = 7, "the target is passive";
        /// A destroy's target is the actor.
        ActorItself = 8, "the target is the actor itself";
        /// An allocate's number or part is outside the actor's stock.
        NotInStock = 9, "the number or the part is outside the stock";
        /// A reclaim's target is alive.
        TargetAlive = 24, "the target is alive";
    }
}

refusals! {
    /// Why potential access was not answered.
    AccessRefusal {
        /// The table is not sound.
        TableUnsound = 1, "the table is not sound";
    }
}

refusals! {
    /// Why the confinement test was refused.
    TestRefusal {
        /// The table is not sound.
        TableUnsound = 1, "the table is not sound";
        /// There is no member, or one that is not alive.
        MembersInvalid = 10, "there is no member, or one is not alive";
        /// The list has more than eight entries, or an entry is no right over a born non-member.
        ListInvalid = 11, "the list is too long, or an entry is invalid";
        /// A member's capability to a non-member has a right that is not listed for it, and its rights are
        /// not exactly wk. A capability with wk alone needs no entry; one with wk and another right, as rights
        /// 5, 6 or 12, needs every right listed, wk too.
        RightUnlisted = 12, "a member holds a right that is not listed; a capability with wk alone needs no entry";
        /// A non-member holds a capability that names a member.
        MemberHeld = 13, "a non-member holds a capability naming a member";
    }
}

refusals! {
    /// Why no chain is shown: what the confinement test is refused for, and then the object.
    ChainRefusal {
        /// The table is not sound.
        TableUnsound = 1, "the table is not sound";
        /// There is no member, or one that is not alive.
        MembersInvalid = 10, "there is no member, or one is not alive";
        /// The list has more than eight entries, or an entry is no right over a born non-member.
        ListInvalid = 11, "the list is too long, or an entry is invalid";
        /// A member's capability to a non-member has a right that is not listed for it, and its rights are
        /// not exactly wk. A capability with wk alone needs no entry; one with wk and another right, as rights
        /// 5, 6 or 12, needs every right listed, wk too.
        RightUnlisted = 12, "a member holds a right that is not listed; a capability with wk alone needs no entry";
        /// A non-member holds a capability that names a member.
        MemberHeld = 13, "a non-member holds a capability naming a member";
        /// The object's number is above 63, unborn or a member.
        ObjectInvalid = 18, "the object is above 63, unborn or a member";
        /// The object is outside the bound.
        OutsideBound = 19, "the object is outside the bound";
    }
}

refusals! {
    /// Why an image was not read.
    ReadRefusal {
        /// The image's table is not sound.
        TableUnsound = 1, "the image's table is not sound";
        /// There are fewer than three bytes, or the image has not the length of its version, 1,923 or 1,987 bytes, in
        /// the slice and in the length field.
        LengthWrong = 14, "the image has a wrong length";
        /// The version byte is neither 1 nor 2.
        VersionWrong = 15, "the image has a wrong version";
    }
}

refusals! {
    /// Why an image was not written. The buffer is as it was.
    WriteRefusal {
        /// The table is not sound.
        TableUnsound = 1, "the table is not sound";
        /// The buffer has fewer than 1,987 bytes.
        BufferShort = 16, "the buffer is too short";
    }
}

refusals! {
    /// Why an image of the older form was not written, in the order of its checks. The buffer is as it was.
    WriteOlderRefusal {
        /// The table is not sound.
        TableUnsound = 1, "the table is not sound";
        /// Some maker is not 64, and the older form has no place for it. An object that was made in a run keeps its
        /// maker when it dies, until its own number is reclaimed or that of its maker: so long its table has no older
        /// form.
        MakerRecorded = 23, "some maker is not 64, and the older form has no place for it";
        /// The buffer has fewer than 1,923 bytes.
        BufferShort = 16, "the buffer is too short";
    }
}

refusals! {
    /// Why a take-and-grant table was not brought in: the first offence, as its bytes come.
    ImportRefusal {
        /// There are fewer than four bytes, the length field is not how many there are, or the entities do
        /// not end with the last of them.
        ImportLengthWrong = 20, "the import has a wrong length";
        /// The version byte is not 1.
        ImportVersionWrong = 21, "the import has a wrong version";
        /// There are more than 64 entities, an entity has more than eight capabilities, a target is no
        /// entity's number, or rights are above 31.
        ImportValueWrong = 22, "a count, a target or rights in the import are out of range";
    }
}
