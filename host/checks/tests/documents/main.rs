//! The documents against the repository: links lead somewhere, names link to the lines that state
//! them, tables and header list what there is, and examples do what the text says.

mod examples;
mod links;
mod lists;
mod repository;
