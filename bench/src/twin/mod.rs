//! The router's calls on bytes, written for speed and for nothing else: what the proved ones are measured against.

pub mod calls;
pub mod layout;
pub mod list;
pub mod survey;
