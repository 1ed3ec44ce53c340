//! What the checks and the benchmark share: the full sum, a model of the session, and the driver of the program.

pub mod circuits;
pub mod conversation;
pub mod elimination;
pub mod forms;
pub mod gates;
pub mod layers;
pub mod model;
pub mod program;
pub mod random;
pub mod reference;
pub mod script;
pub mod system;
pub mod worked;
