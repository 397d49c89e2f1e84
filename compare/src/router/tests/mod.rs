//! The second router against the cases of documents 01 and 02.

mod board;
mod calls;
mod checking;
mod easy_to_get_wrong;
mod edges;
mod goodness;
mod left;
mod profiles;
mod refusals;
mod right_of_way;
mod rule_rows;
