//! The independent program: it reads the stored forms, answers every service by methods of its own, makes cases and
//! judges answers. It knows the documents and nothing of the product.

pub mod by_paths;
pub mod by_tables;
pub mod bytes;
pub mod cases;
pub mod certificates;
pub mod coverage;
pub mod damage;
pub mod formula;
pub mod formulas;
pub mod frame;
pub mod graphs;
pub mod image;
pub mod judge;
pub mod known;
pub mod make;
pub mod observe;
pub mod prover;
pub mod random;
pub mod report;
pub mod rules;
pub mod services;
pub mod setups;
pub mod table;
pub mod writer;
