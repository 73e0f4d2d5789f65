//! The build script's own tests: what it refuses, and in which words.

#[allow(dead_code)]
#[path = "../build.rs"]
mod build_script;
