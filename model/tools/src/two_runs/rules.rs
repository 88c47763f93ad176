//! The rules under which two runs are tried: those of document 01, as amended, or with one of them broken.
//! `steps` and `bound` say what each rule does.

/// What a fetch without rd makes of what it finds.
#[derive(Clone, Copy, Debug, PartialEq, Eq)]
pub enum Weakening {
    /// As in document 01: wk alone if rd or wk was present, otherwise nothing.
    ToWk,
    /// No weakening.
    None,
    /// A right to read stays beside wk.
    KeepsRd,
    /// What was weakened once has rd again after the second time.
    HandsRdBack,
    /// What has neither rd nor wk stays as it is, so that no copy comes out empty.
    NeverToNothing,
}

/// What an empty copy leaves in the destination, in fetch, store, send and allocate.
#[derive(Clone, Copy, Debug, PartialEq, Eq)]
pub enum Empty {
    /// As 2.4 amends document 01: what it held.
    WhatItHeld,
    /// What the object that is copied from has in the slot of that number.
    WhatTheSourceHas,
    /// What it held, if no other object has a capability over the same target; else nothing.
    WhatNobodyElseHas,
}

/// What a destroyed object keeps.
#[derive(Clone, Copy, Debug, PartialEq, Eq)]
pub enum Destroyed {
    /// As in document 01: its kind.
    Kind,
    /// Its slots too.
    KindAndSlots,
}

/// Whom an allocate records as the maker.
#[derive(Clone, Copy, Debug, PartialEq, Eq)]
pub enum Recorded {
    /// As in 2.7: its actor.
    Actor,
    /// The lowest alive object.
    LowestAlive,
    /// The lowest object that has a capability over the actor; the actor, if none has.
    HolderOfActor,
}

/// What becomes of the makers of objects that are born.
#[derive(Clone, Copy, Debug, PartialEq, Eq)]
pub enum Makers {
    /// As in 2.7: they stay.
    Stay,
    /// What is read has its reader.
    TakenByReader,
}

/// When a reclaim is refused though its target is dead.
#[derive(Clone, Copy, Debug, PartialEq, Eq)]
pub enum Reclaimable {
    /// As in 2.8: if the slot has no wr.
    ByWr,
    /// If it has neither wr nor wk.
    ByWrOrWk,
    /// Also while another object holds a capability over the number.
    UnlessHeld,
    /// Also while it is the maker of an object.
    UnlessMaker,
}

/// What a reclaim leaves.
#[derive(Clone, Copy, Debug, PartialEq, Eq)]
pub enum Left {
    /// As in 2.8: nothing that names the number.
    Nothing,
    /// Capabilities of all but the actor. The table is not sound, and what comes next is answered 1.
    Capabilities,
    /// The maker bytes. The table is not sound either.
    Makers,
}

/// Whose stock a reclaimed number joins.
#[derive(Clone, Copy, Debug, PartialEq, Eq)]
pub enum Joins {
    /// As in 2.8: the actor's.
    Actor,
    /// That of the object that made it, if that is alive; else the actor's.
    ItsMaker,
}

/// Of which clean objects the makers are compared.
#[derive(Clone, Copy, Debug, PartialEq, Eq)]
pub enum Compared {
    /// As in 2.8: not of those that were born at the start with a maker that was not clean.
    MadeByClean,
    /// Of all, as before 2.8.
    All,
}

/// Which numbers an allocate can make.
#[derive(Clone, Copy, Debug, PartialEq, Eq)]
pub enum Makes {
    /// As in document 01: numbers of the actor's own stock.
    OwnStock,
    /// Also numbers that are in no stock.
    OwnOrNoStock,
    /// Any unborn number, whoever has it in stock.
    AnyUnborn,
}

/// What the bound makes of the rights that go both ways.
#[derive(Clone, Copy, Debug, PartialEq, Eq)]
pub enum Access {
    /// As in document 01: rd, wr and tx join holder and target, wk is one-way.
    AsWritten,
    /// rd is the same as wk: influence goes from the target to the holder alone.
    ReadLikeWk,
    /// rd passes on what the target holds, but no right over the target itself. This overlooks
    /// only what the target makes later.
    ReadHeldOnly,
    /// wr and tx give influence on the target, but pass nothing on to it.
    WriteOneWay,
}

/// What passes check 12 though not every right of it is listed.
#[derive(Clone, Copy, Debug, PartialEq, Eq)]
pub enum Unlisted {
    /// As 2.3 amends document 01: a capability with wk alone.
    WkAlone,
    /// Also a capability with wk and other rights.
    WkAmongOthers,
    /// Also every capability, where the list is empty.
    AllIfListEmpty,
}

/// Which capabilities of non-members over a member are refused by check 13.
#[derive(Clone, Copy, Debug, PartialEq, Eq)]
pub enum Naming {
    /// As in document 01: all of them.
    All,
    /// Those that active objects hold.
    OfActive,
    /// Those whose rights are other than exactly wk.
    NotWkAlone,
}

/// What the stand-in holds.
#[derive(Clone, Copy, Debug, PartialEq, Eq)]
pub enum StandIn {
    /// As in document 01: exactly the list.
    List,
    /// What the members hold at the start.
    Slots,
}

/// Which links the test counts rounds along.
#[derive(Clone, Copy, Debug, PartialEq, Eq)]
pub enum Rounds {
    /// As in 2.6: those of what non-members and the stand-in hold.
    AsWritten,
    /// Also those of what the members hold.
    ThroughMembers,
}

/// All rules that can be broken.
#[derive(Clone, Copy, Debug, PartialEq, Eq)]
pub struct Rules {
    pub weakening: Weakening,
    pub empty: Empty,
    pub destroyed: Destroyed,
    pub makes: Makes,
    pub recorded: Recorded,
    pub makers: Makers,
    pub reclaimable: Reclaimable,
    pub left: Left,
    pub joins: Joins,
    pub compared: Compared,
    pub access: Access,
    pub unlisted: Unlisted,
    pub naming: Naming,
    pub stand_in: StandIn,
    pub rounds: Rounds,
}

impl Rules {
    /// The rules of document 01, as amended.
    pub const DOCUMENT: Rules = Rules {
        weakening: Weakening::ToWk,
        empty: Empty::WhatItHeld,
        destroyed: Destroyed::Kind,
        makes: Makes::OwnStock,
        recorded: Recorded::Actor,
        makers: Makers::Stay,
        reclaimable: Reclaimable::ByWr,
        left: Left::Nothing,
        joins: Joins::Actor,
        compared: Compared::MadeByClean,
        access: Access::AsWritten,
        unlisted: Unlisted::WkAlone,
        naming: Naming::All,
        stand_in: StandIn::List,
        rounds: Rounds::AsWritten,
    };
}

/// A model with one rule broken.
#[derive(Clone, Copy, Debug)]
pub struct Broken {
    /// The name by which the command knows it.
    pub name: &'static str,
    /// What it does.
    pub says: &'static str,
    pub rules: Rules,
}

/// The broken models. Each of them must be caught.
pub const BROKEN: [Broken; 28] = [
    Broken {
        name: "fetch-not-weakened",
        says: "a fetch through wk copies all rights",
        rules: Rules {
            weakening: Weakening::None,
            ..Rules::DOCUMENT
        },
    },
    Broken {
        name: "weakening-keeps-rd",
        says: "a fetch through wk copies rd too",
        rules: Rules {
            weakening: Weakening::KeepsRd,
            ..Rules::DOCUMENT
        },
    },
    Broken {
        name: "second-fetch-gives-rd",
        says: "a weakened capability, weakened again, has rd",
        rules: Rules {
            weakening: Weakening::HandsRdBack,
            ..Rules::DOCUMENT
        },
    },
    Broken {
        name: "never-weakened-to-nothing",
        says: "a fetch through wk copies wr and tx where there is neither rd nor wk",
        rules: Rules {
            weakening: Weakening::NeverToNothing,
            ..Rules::DOCUMENT
        },
    },
    Broken {
        name: "empty-keeps-sources-slot",
        says: "an empty copy brings the slot of that number from the object copied from",
        rules: Rules {
            empty: Empty::WhatTheSourceHas,
            ..Rules::DOCUMENT
        },
    },
    Broken {
        name: "empty-keeps-unshared",
        says:
            "an empty copy empties the slot if another object also has a capability over its target",
        rules: Rules {
            empty: Empty::WhatNobodyElseHas,
            ..Rules::DOCUMENT
        },
    },
    Broken {
        name: "destroy-keeps-slots",
        says: "a destroyed object keeps its slots, as if revoke alone emptied any",
        rules: Rules {
            destroyed: Destroyed::KindAndSlots,
            ..Rules::DOCUMENT
        },
    },
    Broken {
        name: "rd-one-way",
        says: "the bound takes rd for wk",
        rules: Rules {
            access: Access::ReadLikeWk,
            ..Rules::DOCUMENT
        },
    },
    Broken {
        name: "rd-held-only",
        says: "the bound overlooks, with rd, what the target makes later",
        rules: Rules {
            access: Access::ReadHeldOnly,
            ..Rules::DOCUMENT
        },
    },
    Broken {
        name: "wr-one-way",
        says: "the bound overlooks that wr and tx lead back to the holder",
        rules: Rules {
            access: Access::WriteOneWay,
            ..Rules::DOCUMENT
        },
    },
    Broken {
        name: "bound-from-slots",
        says: "the bound goes by what the members hold, not by the list",
        rules: Rules {
            stand_in: StandIn::Slots,
            ..Rules::DOCUMENT
        },
    },
    Broken {
        name: "rounds-through-members",
        says: "rounds go along what members hold too",
        rules: Rules {
            rounds: Rounds::ThroughMembers,
            ..Rules::DOCUMENT
        },
    },
    Broken {
        name: "passive-holders-skipped",
        says: "check 13 looks at active holders alone",
        rules: Rules {
            naming: Naming::OfActive,
            ..Rules::DOCUMENT
        },
    },
    Broken {
        name: "weak-over-member-passes",
        says: "check 13 passes a non-member's wk over a member",
        rules: Rules {
            naming: Naming::NotWkAlone,
            ..Rules::DOCUMENT
        },
    },
    Broken {
        name: "weak-among-others-passes",
        says: "check 12 passes all rights with wk among them, unlisted",
        rules: Rules {
            unlisted: Unlisted::WkAmongOthers,
            ..Rules::DOCUMENT
        },
    },
    Broken {
        name: "empty-list-passes-all",
        says: "check 12 passes everything where the list is empty",
        rules: Rules {
            unlisted: Unlisted::AllIfListEmpty,
            ..Rules::DOCUMENT
        },
    },
    Broken {
        name: "allocate-any-unborn",
        says: "any unborn number can be made, out of any stock",
        rules: Rules {
            makes: Makes::AnyUnborn,
            ..Rules::DOCUMENT
        },
    },
    Broken {
        name: "allocate-from-no-stock",
        says: "a number that is in no stock can be made by anybody",
        rules: Rules {
            makes: Makes::OwnOrNoStock,
            ..Rules::DOCUMENT
        },
    },
    Broken {
        name: "maker-lowest-alive",
        says: "an allocate records the lowest alive object as the maker",
        rules: Rules {
            recorded: Recorded::LowestAlive,
            ..Rules::DOCUMENT
        },
    },
    Broken {
        name: "maker-holder-of-actor",
        says: "an allocate records the lowest object with a capability over its actor as the maker",
        rules: Rules {
            recorded: Recorded::HolderOfActor,
            ..Rules::DOCUMENT
        },
    },
    Broken {
        name: "maker-taken-by-reader",
        says: "a read leaves its actor as the maker of what it reads",
        rules: Rules {
            makers: Makers::TakenByReader,
            ..Rules::DOCUMENT
        },
    },
    Broken {
        name: "maker-always-compared",
        says: "equal records include every maker, as before 2.8",
        rules: Rules {
            compared: Compared::All,
            ..Rules::DOCUMENT
        },
    },
    Broken {
        name: "reclaim-refused-while-held",
        says: "a reclaim is refused while another object holds a capability over the number",
        rules: Rules {
            reclaimable: Reclaimable::UnlessHeld,
            ..Rules::DOCUMENT
        },
    },
    Broken {
        name: "reclaim-refused-while-maker",
        says: "a reclaim is refused while the number is the maker of an object",
        rules: Rules {
            reclaimable: Reclaimable::UnlessMaker,
            ..Rules::DOCUMENT
        },
    },
    Broken {
        name: "reclaim-through-wk",
        says: "wk is enough for a reclaim",
        rules: Rules {
            reclaimable: Reclaimable::ByWrOrWk,
            ..Rules::DOCUMENT
        },
    },
    Broken {
        name: "reclaim-leaves-capabilities",
        says: "a reclaim empties the actor's slots alone",
        rules: Rules {
            left: Left::Capabilities,
            ..Rules::DOCUMENT
        },
    },
    Broken {
        name: "reclaim-leaves-makers",
        says: "a reclaimed number stays the maker of what it made",
        rules: Rules {
            left: Left::Makers,
            ..Rules::DOCUMENT
        },
    },
    Broken {
        name: "reclaim-returns-to-maker",
        says: "a reclaimed number joins the stock of the object that made it, if that is alive",
        rules: Rules {
            joins: Joins::ItsMaker,
            ..Rules::DOCUMENT
        },
    },
];

/// The broken model with this name.
pub fn broken_model(name: &str) -> Option<&'static Broken> {
    BROKEN.iter().find(|broken| broken.name == name)
}
