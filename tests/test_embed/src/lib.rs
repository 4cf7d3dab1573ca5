//! The calls of jamdrosek_c, as a program in C makes them over the header.

#[cfg(test)]
mod calls;
mod codec;
mod connection;
#[cfg(test)]
mod named;
mod reader;
mod relay;
mod tell;
mod text;
