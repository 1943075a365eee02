// The twin of the planner: document 01 written a second time, from its text alone.
// The programs under src/bin compare it with the static library and with the planning program; `bench/` measures
// against it.

pub mod age;
pub mod book;
pub mod cases;
pub mod damage;
pub mod draw;
pub mod drawn;
pub mod examples;
pub mod guards;
pub mod kit;
pub mod library;
pub mod lists;
pub mod plan;
pub mod program;
pub mod random;
pub mod reached;
pub mod rule;
pub mod search;
pub mod stray;
pub mod table;
pub mod terms;
