//! Threads over the library: `tools/library-threads` makes a crate of this text, and runs its tests. Nothing here is proved.
#![tactic(auto)]

#[cfg(test)]
mod tests;
