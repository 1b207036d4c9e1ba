//! A second implementation of document 01, written from the page and the article alone and
//! kept plain: it is there to be disagreed with.

pub mod blocks;
pub mod book;
pub mod build;
pub mod chains;
pub mod entries;
pub mod faults;
pub mod figure;
pub mod groups;
pub mod limits;
pub mod passes;
pub mod refusal;
pub mod sheet;
pub mod ties;
pub mod trial;
pub mod walk;
