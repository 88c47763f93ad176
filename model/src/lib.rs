//! The capability table of document 01 as a model in plain safe Rust, without dependencies. It is
//! written from that document and from the requests of document 02 that have landed, and from these
//! alone, so that other implementations can be compared with it.
//!
//! Document 01, section by section:
//!
//! | section | file |
//! |---|---|
//! | Objects, slots, rights | `table`: records, soundness; `set`: numbers as 64 bits |
//! | The eight requests | `step`: needs, effects, both forms of a step; the ninth of 2.8 is there too; `wire`: as bytes |
//! | Potential access and influence | `access`: by saturation of the rules as written |
//! | The confinement test | `confinement`: checks, stand-in, bound, all that the test brings back |
//! | Two runs | `runs`: a run, the clean objects along it, their requests and replies, as 2.8 amends them, and whose maker is compared |
//! | Why something is turned down | `refusal`: numbers; each check is where it refuses |
//! | The stored image | `image`: reading and writing, as 2.7 amends them; `confine`: the program |
//! | Table K and twelve examples | `table`: `Table::k`; `tests/examples.rs`, example 2 as 2.3 amends it, example 6 with the maker of 2.7 |
//! | What every contract owes | none: it is about proofs |
//! | Where earlier tables went astray | `tests/sentences.rs`, a test each |
//! | Forms for parts of the code | none: it is about the proved code |
//!
//! Document 02, the requests that have landed:
//!
//! | request | file |
//! |---|---|
//! | 2.1 Show me the chain | `test_links`: the links of a test; `chain`: checks, the shortest chain that comes first |
//! | 2.2 Bring in take-and-grant tables | `take_grant`: checks, the walk over the entities, what rights become |
//! | 2.3 Weak capabilities need no entry | `confinement`: `passes`, the amended refusal 12 |
//! | 2.4 An empty copy keeps the destination | `step`: `landed`, where every copy lands |
//! | 2.5 Sixteen rows for weakening | none: no result changes. The rows are compared with `step`, which keeps to the sentences: `weaken`, `Code::needs` |
//! | 2.6 How many rounds | `rounds`: what is there after each round; `confinement` reports how many they are |
//! | 2.7 Record who made it | `table`: the maker, a clause of soundness; `step`: who writes and keeps it; `image`: both versions; `confine`: version 1 alone |
//! | 2.8 Use dead numbers again | `step`: reclaim, refusal 24; `wire`: its bytes; `runs`: clean by the latest making, the makers that equal records leave out |
//! | 2.9 Work it out by groups | `groups`: groups, links to an object, potential access and the test by them |
//!
//! Beside these, `links` leads to the bound one more way, as the proved code has it too: what can be
//! reached from the holder of the list, link by link, and in how many rounds. Of requests and lists as bytes document 01 says no
//! more than the order of fields; `wire` has what crosses to C and Rust.

#![forbid(unsafe_code)]

// In the order of document 01.
pub mod set;
pub mod table;

pub mod step;
pub mod wire;

pub mod access;
pub mod links;

pub mod confinement;

pub mod runs;

pub mod refusal;

pub mod image;

pub mod confine;

// In the order of document 02.
pub mod chain;
pub mod test_links;

pub mod take_grant;

pub mod rounds;

pub mod groups;
