//! The entries for tables and lists beside the reference, in guarded buffers, on inputs that the
//! other tests do not make: every number of every answer, every cell of every buffer.

mod bare;
mod beside;
mod by_chance;
mod changed;
mod forms;
mod long;
mod mended;
mod shortened;
mod small;
mod stepped;
