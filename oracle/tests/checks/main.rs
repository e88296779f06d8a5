//! Checks of the scope's rules. Each check is a function of a built-in fault: the tests run them with
//! none, and `mutants` shows that every fault makes some check fail.

#[macro_use]
mod support;

mod cases;
mod endpoint;
mod layouts;
mod lists;
mod mutants;
mod published;
mod refusals;
mod saved;
mod scripts;
mod scripts_of_checksums;
mod scripts_of_rtp_headers;
mod scripts_of_saves;
mod soundness;
mod udp_checksums;
