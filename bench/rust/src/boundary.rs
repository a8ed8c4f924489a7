//! The services as C calls them, with the results of include/zseq.h: a refusal is its number, a side 128 or 129, a count 128 and more.

use crate::{fastest, idiomatic, Refusal, Side};
use std::slice::{from_raw_parts, from_raw_parts_mut};

fn side_code(answer: Result<Side, Refusal>) -> u64 {
    match answer {
        Ok(side) => 128 + side as u64,
        Err(refusal) => refusal as u64,
    }
}

fn write_code(answer: Result<(Side, usize), Refusal>, length: &mut u64) -> u64 {
    side_code(answer.map(|(side, written)| {
        *length = written as u64;
        side
    }))
}

fn set_code(answer: Result<u64, Refusal>, buffer: &mut [u8]) -> u64 {
    match answer {
        Ok(set) => {
            if let Some(front) = buffer.get_mut(..8) {
                front.copy_from_slice(&set.to_be_bytes());
            }
            128 + u64::from(set.count_ones())
        }
        Err(refusal) => refusal as u64,
    }
}

/// Exports the four services of one version. Safety, of each: a pointer and the length after it are a slice that lives through the call,
/// and a slice that is written overlaps no other.
macro_rules! export {
    ($version:ident, $verdict:ident, $check:ident, $write:ident, $dead_ends:ident) => {
        /// # Safety
        /// Each pointer and the length after it are a slice.
        #[no_mangle]
        pub unsafe extern "C" fn $verdict(
            image: *const u8,
            image_len: usize,
            table: *const u8,
            table_len: usize,
            goal: u64,
            start: u64,
        ) -> u64 {
            side_code($version::verdict(
                from_raw_parts(image, image_len),
                from_raw_parts(table, table_len),
                goal,
                start,
            ))
        }

        /// # Safety
        /// Each pointer and the length after it are a slice.
        #[no_mangle]
        pub unsafe extern "C" fn $check(
            image: *const u8,
            image_len: usize,
            table: *const u8,
            table_len: usize,
            certificate: *const u8,
            certificate_len: usize,
            goal: u64,
            start: u64,
        ) -> u64 {
            let certificate = from_raw_parts(certificate, certificate_len);
            side_code($version::check(
                from_raw_parts(image, image_len),
                from_raw_parts(table, table_len),
                certificate,
                goal,
                start,
            ))
        }

        /// # Safety
        /// Each pointer and the length after it are a slice, and the last one is to a number; what is written overlaps nothing else.
        #[no_mangle]
        pub unsafe extern "C" fn $write(
            image: *const u8,
            image_len: usize,
            table: *const u8,
            table_len: usize,
            goal: u64,
            start: u64,
            buffer: *mut u8,
            buffer_len: usize,
            length: *mut u64,
        ) -> u64 {
            let buffer = from_raw_parts_mut(buffer, buffer_len);
            let (image, table) = (from_raw_parts(image, image_len), from_raw_parts(table, table_len));
            write_code($version::write(image, table, goal, start, buffer), &mut *length)
        }

        /// # Safety
        /// Each pointer and the length after it are a slice; a slice that is written overlaps no other.
        #[no_mangle]
        pub unsafe extern "C" fn $dead_ends(image: *const u8, image_len: usize, set: *mut u8, set_len: usize) -> u64 {
            set_code($version::dead_ends(from_raw_parts(image, image_len)), from_raw_parts_mut(set, set_len))
        }
    };
}

export!(idiomatic, idiomatic_verdict, idiomatic_check, idiomatic_write, idiomatic_dead_ends);
export!(fastest, fastest_verdict, fastest_check, fastest_write, fastest_dead_ends);
