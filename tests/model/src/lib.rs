//! An independent model of documents 01 and 02 (requests 1 and 2), the drive side of a private Fibre Channel loop.
//! A file a section of 01; each rule stands under a comment that quotes its sentence, of 02 where it says so.

pub mod command;
pub mod drive;
pub mod formed;
pub mod frame;
pub mod link;
pub mod next;
pub mod record;
pub mod rules;
pub mod setup;
pub mod write;
