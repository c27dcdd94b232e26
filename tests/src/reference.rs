//! The rules of document 01, with of document 02, on lists
//! of bits, one module a subject. A refusal is `Err` with its number; `calls`
//! gives the answers in the C interface's form, and `functions` are its functions.

pub mod calls;
pub mod frame;
pub mod functions;
pub mod receiver;
pub mod receiver_record;
pub mod sender;
pub mod strip;
pub mod strip_conversion;
pub mod strip_reading;
pub mod sums;
