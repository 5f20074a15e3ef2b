// What the tests share: recordings made from dice, a model of the format, and files held sort by sort. It rests on nothing of the archive.
#![allow(dead_code)] // each test uses a part

pub mod files;
pub mod model;
pub mod sorts;
