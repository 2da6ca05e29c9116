//! Document 01 implemented a second time, apart from the proved code, to hold the proved code against.

pub mod certificate;
pub mod corpus;
pub mod forcing;
pub mod fork;
pub mod formula;
pub mod hostile;
pub mod naming;
pub mod program;
pub mod proved;
pub mod question;
pub mod random;
pub mod reader;
pub mod refusal;
pub mod report;
pub mod script;
pub mod search;
pub mod sequent;
pub mod session;
pub mod shared;
pub mod stored;
pub mod texts;
