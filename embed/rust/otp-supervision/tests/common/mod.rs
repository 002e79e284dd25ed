//! What several tests use, those of `otp-procs` too.

pub mod script;
