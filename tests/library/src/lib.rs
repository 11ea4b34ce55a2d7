// lib.rs: the proved library behind a safe wrapper, a watcher that compares it with the independent model, cells that no run made,
// a gauge of stack, the journal page, the plan, and the programs.

pub mod cells;
pub mod made_up;
pub mod made_up_plans;
pub mod page;
pub mod paint;
pub mod planner;
pub mod program;
pub mod session;
pub mod stage;
pub mod watcher;
