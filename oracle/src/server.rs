//! A program that answers the three calls: the oracle, the linked library, a wrong variant.

use crate::calls::{self, Served, Ticked};

pub trait Server {
    fn make(&self, week: u32, second: u32, table: &mut [u8], roster: &[u8]) -> u32;

    fn tick(&self, week: u32, second: u32, table: &mut [u8]) -> Ticked;

    #[allow(clippy::too_many_arguments)]
    fn serve(
        &self,
        week: u32,
        second: u32,
        address_high: u64,
        address_low: u64,
        port: u16,
        random: u64,
        datagram: &[u8],
        table: &mut [u8],
        reply: &mut [u8],
    ) -> Served;
}

pub struct Oracle;

impl Server for Oracle {
    fn make(&self, week: u32, second: u32, table: &mut [u8], roster: &[u8]) -> u32 {
        calls::make(week, second, table, roster)
    }

    fn tick(&self, week: u32, second: u32, table: &mut [u8]) -> Ticked {
        calls::tick(week, second, table)
    }

    fn serve(
        &self,
        week: u32,
        second: u32,
        address_high: u64,
        address_low: u64,
        port: u16,
        random: u64,
        datagram: &[u8],
        table: &mut [u8],
        reply: &mut [u8],
    ) -> Served {
        calls::serve(week, second, address_high, address_low, port, random, datagram, table, reply)
    }
}

#[cfg(feature = "before")]
pub use linked::Before;
#[cfg(feature = "linked")]
pub use linked::Linked;
#[cfg(feature = "bench")]
pub use linked::Plain;

/// Programs behind the C interface.
#[cfg(feature = "linked")]
mod linked {
    use super::*;

    #[repr(C)]
    struct LlqServed {
        number: u32,
        length: u32,
    }

    #[repr(C)]
    struct LlqTicked {
        number: u32,
        freed: u32,
    }

    /// A server by the names of its three calls.
    macro_rules! server {
        ($(#[$about:meta])* $server:ident: $make:ident, $tick:ident, $serve:ident) => {
            extern "C" {
                fn $make(
                    week: u32,
                    second: u32,
                    table: *mut u8,
                    table_len: usize,
                    roster: *const u8,
                    roster_len: usize,
                ) -> u32;

                fn $tick(week: u32, second: u32, table: *mut u8, table_len: usize) -> LlqTicked;

                fn $serve(
                    week: u32,
                    second: u32,
                    address_high: u64,
                    address_low: u64,
                    port: u16,
                    random: u64,
                    datagram: *const u8,
                    datagram_len: usize,
                    table: *mut u8,
                    table_len: usize,
                    reply: *mut u8,
                    reply_len: usize,
                ) -> LlqServed;
            }

            $(#[$about])*
            pub struct $server;

            // Each pointer is a slice's own, with its length, lent for the call alone.
            impl Server for $server {
                fn make(&self, week: u32, second: u32, table: &mut [u8], roster: &[u8]) -> u32 {
                    unsafe {
                        $make(
                            week,
                            second,
                            table.as_mut_ptr(),
                            table.len(),
                            roster.as_ptr(),
                            roster.len(),
                        )
                    }
                }

                fn tick(&self, week: u32, second: u32, table: &mut [u8]) -> Ticked {
                    let ticked = unsafe { $tick(week, second, table.as_mut_ptr(), table.len()) };
                    Ticked { number: ticked.number, freed: ticked.freed }
                }

                fn serve(
                    &self,
                    week: u32,
                    second: u32,
                    address_high: u64,
                    address_low: u64,
                    port: u16,
                    random: u64,
                    datagram: &[u8],
                    table: &mut [u8],
                    reply: &mut [u8],
                ) -> Served {
                    let served = unsafe {
                        $serve(
                            week,
                            second,
                            address_high,
                            address_low,
                            port,
                            random,
                            datagram.as_ptr(),
                            datagram.len(),
                            table.as_mut_ptr(),
                            table.len(),
                            reply.as_mut_ptr(),
                            reply.len(),
                        )
                    };
                    Served { number: served.number, length: served.length }
                }
            }
        };
    }

    server! {
        /// The library under test.
        Linked: llq_make, llq_tick, llq_serve
    }

    #[cfg(feature = "bench")]
    server! {
        /// The plain C of bench/plain.c, its calls renamed.
        Plain: plain_make, plain_tick, plain_serve
    }

    #[cfg(feature = "before")]
    server! {
        /// An earlier archive, its calls renamed.
        Before: before_make, before_tick, before_serve
    }
}
