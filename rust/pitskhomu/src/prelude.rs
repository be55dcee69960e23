//! What the author of a file system needs: `use pitskhomu::prelude::*`. None of these names is one
//! of std's own prelude, or of `std::io`.
//!
//! # Examples
//! ```
//! use pitskhomu::prelude::*;
//! use std::io::prelude::*;
//!
//! fn read(file: &mut std::fs::File, data: &mut ReadData<'_>) -> Answer<()> {
//!     let mut text = String::new();
//!     file.read_to_string(&mut text)?;
//!     data.put(text.as_bytes());
//!     Ok(())
//! }
//! # let _ = read;
//! ```
pub use crate::{
    AccessMask, Allocate, Answer, Attributes, CStr, Cancelled, Child, Context, CopyFileRange,
    Create, DirectoryEntry, Entry, Errno, FileKind, FilePlace, FileSystem, Forgets, Handle, Init,
    Listing, MakeDirectory, MakeNode, Node, Open, OpenOptions, Opened, Operation, Options,
    OwnedCall, OwnedRequest, ReadData, ReadDirectory, ReadFile, Release, RenameFlags, Reply,
    Request, Response, SeekFile, SetAttributes, SetAttributesValid, SetTime, SetXattr, Statistics,
    Time, WriteData, WriteFile,
};
