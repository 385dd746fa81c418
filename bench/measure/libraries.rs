//! Libraries of others, each behind the few C functions of `bench/peers`. Those that are not installed are left out.

/// A library's own form of two rows and of a window's rows, and what is measured of it.
pub struct Library {
    pub name: &'static str,
    /// Subtracts a multiple of one row from another.
    pub subtract: Box<dyn FnMut()>,
    /// Reduces a window's rows, from a fresh copy; the library may have none.
    pub decode: Option<Box<dyn FnMut()>>,
    /// Symbol s of packet k after the reduction.
    pub packet: Option<Box<dyn Fn(usize, usize) -> u16>>,
}

use super::peer::elimination::Row;

/// All codes of a row, coefficients first.
#[allow(dead_code)]
fn codes(row: &Row) -> impl Iterator<Item = u16> {
    row.slots.into_iter().chain(row.payload)
}

#[cfg(isal)]
pub fn isal(factor: u16, target: &Row, other: &Row) -> Library {
    unsafe extern "C" {
        fn isal_prepare(factor: u8, table: *mut u8);
        fn isal_subtract(target: *mut u8, table: *mut u8, other: *mut u8, len: i32);
        fn isal_leave();
    }
    let mut target: Vec<u8> = codes(target).map(|code| code as u8).collect();
    let mut other: Vec<u8> = codes(other).map(|code| code as u8).collect();
    let mut table = [0; 32];
    // The table of the factor is part of the work: in an elimination hardly a factor comes twice.
    let subtract = move || unsafe {
        isal_prepare(std::hint::black_box(factor as u8), table.as_mut_ptr());
        isal_subtract(target.as_mut_ptr(), table.as_mut_ptr(), other.as_mut_ptr(), 160);
        isal_leave();
    };
    Library { name: "ISA-L", subtract: Box::new(subtract), decode: None, packet: None }
}

#[cfg(gf_complete)]
pub fn gf_complete(factor: u16, target: &Row, other: &Row) -> Library {
    unsafe extern "C" {
        fn gf_complete_open() -> i32;
        fn gf_complete_subtract(target: *mut u8, factor: u32, other: *mut u8, len: i32);
    }
    // It wants both rows at addresses that are equal modulo 16.
    let mut rows: Vec<u128> = vec![0; 20];
    let bytes = unsafe { std::slice::from_raw_parts_mut(rows.as_mut_ptr().cast::<u8>(), 320) };
    for (byte, code) in bytes.iter_mut().zip(codes(target).chain(codes(other))) {
        *byte = code as u8;
    }
    unsafe { gf_complete_open() };
    let subtract = move || unsafe {
        let target = rows.as_mut_ptr().cast::<u8>();
        gf_complete_subtract(target, std::hint::black_box(u32::from(factor)), target.add(160), 160);
    };
    Library { name: "GF-Complete", subtract: Box::new(subtract), decode: None, packet: None }
}

#[cfg(m4ri)]
pub fn m4ri(target: &Row, other: &Row, window: &[Row; 32]) -> Library {
    use std::ffi::c_void;
    unsafe extern "C" {
        fn m4ri_matrix(rows: i32, columns: i32) -> *mut c_void;
        fn m4ri_set(m: *mut c_void, row: i32, column: i32, bit: i32);
        fn m4ri_get(m: *mut c_void, row: i32, column: i32) -> i32;
        fn m4ri_copy(to: *mut c_void, from: *mut c_void);
        fn m4ri_subtract(m: *mut c_void, target: i32, other: i32);
        fn m4ri_reduce(m: *mut c_void);
    }
    let matrix = |rows: &[Row]| unsafe {
        let m = m4ri_matrix(rows.len() as i32, 160);
        for (i, row) in rows.iter().enumerate() {
            for (j, code) in codes(row).enumerate() {
                m4ri_set(m, i as i32, j as i32, i32::from(code));
            }
        }
        m
    };
    let pair = matrix(&[*target, *other]);
    let from = matrix(window);
    let to = matrix(window);
    let decode = move || unsafe {
        m4ri_copy(to, from);
        m4ri_reduce(to);
    };
    Library {
        name: "M4RI",
        subtract: Box::new(move || unsafe { m4ri_subtract(pair, 0, 1) }),
        decode: Some(Box::new(decode)),
        packet: Some(Box::new(move |k, s| unsafe { m4ri_get(to, k as i32, 32 + s as i32) as u16 })),
    }
}

#[cfg(flint)]
pub fn flint(factor: u16, target: &Row, other: &Row, window: &[Row; 32]) -> Library {
    use std::ffi::c_void;
    unsafe extern "C" {
        fn flint_subtract(target: *mut u64, factor: u64, other: *const u64, len: i64);
        fn flint_matrix(rows: i32, columns: i32) -> *mut c_void;
        fn flint_set(m: *mut c_void, row: i32, column: i32, code: u64);
        fn flint_get(m: *mut c_void, row: i32, column: i32) -> u64;
        fn flint_copy(to: *mut c_void, from: *mut c_void);
        fn flint_reduce(m: *mut c_void);
    }
    let mut target: Vec<u64> = codes(target).map(u64::from).collect();
    let other: Vec<u64> = codes(other).map(u64::from).collect();
    let matrix = |rows: &[Row]| unsafe {
        let m = flint_matrix(rows.len() as i32, 160);
        for (i, row) in rows.iter().enumerate() {
            for (j, code) in codes(row).enumerate() {
                flint_set(m, i as i32, j as i32, u64::from(code));
            }
        }
        m
    };
    let from = matrix(window);
    let to = matrix(window);
    let decode = move || unsafe {
        flint_copy(to, from);
        flint_reduce(to);
    };
    let subtract = move || unsafe { flint_subtract(target.as_mut_ptr(), u64::from(factor), other.as_ptr(), 160) };
    Library {
        name: "FLINT",
        subtract: Box::new(subtract),
        decode: Some(Box::new(decode)),
        packet: Some(Box::new(move |k, s| unsafe { flint_get(to, k as i32, 32 + s as i32) as u16 })),
    }
}
