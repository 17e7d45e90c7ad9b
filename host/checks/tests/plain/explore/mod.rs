//! Every interleaving of small workloads with every leaf choice, against the plain bag.

mod mistaken;
mod mistakes;
mod recorded;
mod right;
mod search;
