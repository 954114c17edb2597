//! The way of a new user from a fresh clone: the first build, the examples in C, C++ and Python, an
//! installed library, and every command of README.

mod build;
mod clone;
mod examples;
mod files;
mod install;
mod python;
mod readme;
mod tools;
