//! Sockets over the library: `tools/library-sockets` makes a crate of this text, and runs its test. Nothing here is proved.
#![tactic(auto)]

#[cfg(test)]
mod tests;
