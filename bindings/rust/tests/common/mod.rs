//! What the files of tests share.
//!
//! - `random`: drawn numbers, from fixed seeds.
//! - `sheets`: campaigns, drawn and by hand, and their bytes.
//! - `damage`: small sheets, sound and with drawn faults.
//! - `judge`: calls the library and compares with the reference.
//! - `answers`: all that the library answers to a sheet.
//! - `tally`: counts the comparisons.

// Each file of tests uses a part of this.
#![allow(dead_code)]

pub mod answers;
pub mod damage;
pub mod judge;
pub mod random;
pub mod sheets;
pub mod tally;
