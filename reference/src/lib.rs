//! A second implementation of pool shapes, kept plain so that others can be
//! compared against it.
//!
//! The names are those of the field: a rule set is the book, a heap is the
//! pool in a snapshot, a query is the question, the domain is the kept values,
//! a certificate is an unfolding in lines, and an unfolding tree is an
//! unfolding by hand.

pub mod api;
pub mod certificate;
pub mod check;
pub mod domain;
pub mod fact;
pub mod fixpoint;
pub mod formats;
pub mod naive;
pub mod plain;
pub mod tree;
pub mod trial;
pub mod verdict;
pub mod walk;
