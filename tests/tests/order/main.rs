//! Request 03 of document 02: the order of stored bytes is the order of the numbers that they are. In cells that are
//! written, in cells that are read and in key lists; of the library and of the model.

mod cells;
mod key_lists;
mod kind;
mod side;
mod value;
