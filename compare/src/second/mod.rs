//! The independent second implementation, the partner that the proved library is compared with. It is
//! written from the documents alone, the scope ("01" in the comments), the requests that change it ("02")
//! and EN 302 550-1-1 V1.1.1 ("the standard"), without sight of the library's code or tables. TABLES.md
//! says how the tables that are damaged in its text were read.
#![forbid(unsafe_code)]

pub mod bits;
pub mod crc;
pub mod description;
pub mod interleaver;
pub mod ip;
pub mod mixer;
pub mod parity;
pub mod patterns;
pub mod payload;
pub mod pipe;
pub mod preamble;
pub mod profile;
pub mod refusal;
pub mod signalling;
pub mod turbo;
