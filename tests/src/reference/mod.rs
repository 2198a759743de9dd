//! An independent version of the library, one file a layer, written for speed: one pass over the input, no
//! allocation where it matters, outputs into lent memory. It takes nothing from the library's code.

pub mod a6;
pub mod address;
pub mod collapse;
pub mod draft;
pub mod forward;
pub mod line;
pub mod names;
pub mod plan;
pub mod reverse;
pub mod text;
