//! Scripts between text and bytes: each form, both ways on any bytes, what is refused, and the commands.

mod both_ways;
mod commands;
mod draws;
mod faults;
mod forms;
mod script_p;
