//! A model of document 01 and of the requests of 02 that have landed, written from the documents alone and by another route than the proved code: it
//! keeps the history of accepted calls and works everything out of it afresh, adds fractions exactly, and searches every time where that is feasible. It
//! is slow on purpose.

pub mod dispatch;
pub mod image;
pub mod judge;
pub mod linux;
