//! A sheet as a picture: why this verdict. A page for a browser and for paper, or text for a terminal. It stands outside the proofs and computes nothing itself: every fact that it shows
//! is an answer of the proved library.
//!
//! `facts` asks for all that an accepted sheet has to show, `standing` for its job, `tree` splits a rule by the table of `signs` and `asked` asks about its parts; `fault` finds the place of a refusal by asking about
//! pieces of the sheet. `words` has the sentences, `text` and `page` set them, `chart` and `strip` draw.

pub mod asked;
pub mod chart;
pub mod columns;
pub mod facts;
pub mod fault;
pub mod names;
pub mod page;
pub mod places;
pub mod progress;
pub mod signs;
pub mod standing;
pub mod strip;
pub mod svg;
pub mod text;
pub mod tree;
pub mod words;
