//! All tests but those of rows and of refused memory, in one program, so that cargo links one.
mod choice;
mod display;
mod guesses;
mod habits;
mod keywords;
mod long;
mod methods;
#[cfg(all(feature = "alloc", feature = "data"))]
mod numbers;
mod owned;
mod oxilangtag;
mod parts;
mod program;
mod repeats;
mod scan;
mod serde;
mod sizes;
mod tags;
