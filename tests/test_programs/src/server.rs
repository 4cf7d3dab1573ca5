//! A server of objects, and a connection: devices and allocations that fail, calls that are lent, and what faults print.

mod devices;
mod faults;
mod lending;
mod memory;
