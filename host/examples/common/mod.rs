// What the programs share: how one is called and what it says, and how a file is put in place. It rests on nothing of the recordings but
// their refusals and their first bytes.
#![allow(dead_code)] // each program uses a part

pub mod command;
pub mod new_file;
