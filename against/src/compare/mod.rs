//! Calls made up in groups, each made to the library and to the model, with everything that comes back compared.

pub mod call;
pub mod comparison;
pub mod groups;
pub mod layout;
pub mod random;
pub mod run;
pub mod shapes;
pub mod twelve_cases;
pub mod wrong;
