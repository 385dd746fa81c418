//! Row subtraction and the decoding of a window: the proved functions, the same in Rust, and libraries.

use std::hint::black_box;

use super::clock;
use super::libraries::Library;
use super::peer::elimination::{Row, decode};
use super::peer::field::{Bits, Bytes, Field, Residues};
use super::peer::source::{Source, Woven};

/// The first 32 packets of a stream, as the proved functions take them.
#[repr(C)]
struct Packets {
    packets: [[u16; 128]; 32],
}

unsafe extern "C" {
    fn lambjade_bits_subtract(target: &mut Row, factor: u16, other: &Row);
    fn lambjade_bytes_subtract(target: &mut Row, factor: u16, other: &Row);
    fn lambjade_residues_subtract(target: &mut Row, factor: u16, other: &Row);
    fn lambjade_bits_decode(rows: *const Row, count: usize, packets: &mut Packets);
    fn lambjade_bytes_decode(rows: *const Row, count: usize, packets: &mut Packets);
    fn lambjade_residues_decode(rows: *const Row, count: usize, packets: &mut Packets);
}

type Subtract = unsafe extern "C" fn(&mut Row, u16, &Row);
type Decode = unsafe extern "C" fn(*const Row, usize, &mut Packets);

/// Numbers that look random, the same in each run.
struct Numbers(u32);

impl Numbers {
    fn below(&mut self, limit: u16) -> u16 {
        self.0 = self.0.wrapping_mul(1_664_525).wrapping_add(1_013_904_223);
        (self.0 / 65_536 % u32::from(limit)) as u16
    }
}

/// 32 packets, and the rows of 32 woven draws of them.
fn window<F: Field>() -> ([[u16; 128]; 32], [Row; 32]) {
    let mut numbers = Numbers(7);
    let packets: [[u16; 128]; 32] = std::array::from_fn(|_| std::array::from_fn(|_| numbers.below(F::Q)));
    let mut source = Woven::default();
    let rows = std::array::from_fn(|_| {
        let slots = source.draw(F::Q, 32);
        let payload = std::array::from_fn(|s| {
            let terms = slots.iter().zip(&packets).map(|(slot, packet)| F::mul(*slot, packet[s]));
            terms.fold(0, F::add)
        });
        Row { slots, payload }
    });
    (packets, rows)
}

/// Keeps a function from being inlined into the loop that measures it, as the proved one cannot be.
#[inline(never)]
fn subtract_in_rust<F: Field>(target: &mut Row, factor: u16, other: &Row) {
    target.subtract::<F>(factor, other);
}

#[inline(never)]
fn decode_in_rust<F: Field>(rows: &[Row; 32], packets: &mut [[u16; 128]; 32]) {
    decode::<F>(rows, packets);
}

fn line(name: &str, unit: &str, times: &[f64], rust: usize, libraries: &[Library], places: usize) {
    let [ours, theirs] = [times[0], times[rust]];
    print!("{name:<10}{ours:>10.places$}{theirs:>10.places$}{:>8.2}", ours / theirs);
    for (library, time) in libraries.iter().zip(&times[2..]) {
        print!("   {} {time:.places$} {unit}, ratio {:.1}", library.name, ours / time);
    }
    println!();
}

struct Case {
    name: &'static str,
    factor: u16,
    ours: (Subtract, Decode),
    rust: (fn(&mut Row, u16, &Row), fn(&[Row; 32], &mut [[u16; 128]; 32])),
    packets: [[u16; 128]; 32],
    rows: [Row; 32],
    libraries: Vec<Library>,
}

fn case<F: Field>(name: &'static str, factor: u16, ours: (Subtract, Decode)) -> Case {
    let (packets, rows) = window::<F>();
    let rust = (subtract_in_rust::<F> as fn(&mut Row, u16, &Row), decode_in_rust::<F> as fn(&_, &mut _));
    Case { name, factor, ours, rust, packets, rows, libraries: Vec::new() }
}

/// The two rows that the subtraction is measured on: dense ones.
fn pair(case: &Case) -> (Row, Row) {
    (case.rows[30], case.rows[31])
}

fn cases() -> [Case; 3] {
    #[allow(unused_mut)]
    let mut bits = case::<Bits>("bits", 1, (lambjade_bits_subtract, lambjade_bits_decode));
    #[allow(unused_mut)]
    let mut bytes = case::<Bytes>("bytes", 0x53, (lambjade_bytes_subtract, lambjade_bytes_decode));
    #[allow(unused_mut)]
    let mut residues = case::<Residues>("residues", 123, (lambjade_residues_subtract, lambjade_residues_decode));
    #[cfg(m4ri)]
    bits.libraries.push(super::libraries::m4ri(&pair(&bits).0, &pair(&bits).1, &bits.rows));
    #[cfg(isal)]
    bytes.libraries.push(super::libraries::isal(bytes.factor, &pair(&bytes).0, &pair(&bytes).1));
    #[cfg(gf_complete)]
    bytes.libraries.push(super::libraries::gf_complete(bytes.factor, &pair(&bytes).0, &pair(&bytes).1));
    #[cfg(flint)]
    residues.libraries.push(super::libraries::flint(123, &pair(&residues).0, &pair(&residues).1, &residues.rows));
    [bits, bytes, residues]
}

/// A row at an address that suits vector code, the same for every candidate.
#[derive(Clone, Copy)]
#[repr(align(64))]
struct Aligned(Row);

fn subtraction(case: &mut Case) {
    let (start, other) = pair(case);
    let (mut ours, mut theirs, other) = (Aligned(start), Aligned(start), Aligned(other));
    let (ours, theirs, other) = (&mut ours.0, &mut theirs.0, &other.0);
    unsafe { case.ours.0(ours, case.factor, other) };
    case.rust.0(theirs, case.factor, other);
    assert!(ours.slots == theirs.slots && ours.payload == theirs.payload, "{}: rows differ", case.name);
    let (subtract, in_rust, factor) = (case.ours.0, case.rust.0, case.factor);
    let mut one = || unsafe { subtract(ours, black_box(factor), other) };
    let mut two = || in_rust(theirs, black_box(factor), other);
    let mut candidates: Vec<&mut dyn FnMut()> = vec![&mut one, &mut two];
    candidates.extend(case.libraries.iter_mut().map(|library| &mut library.subtract as &mut dyn FnMut()));
    let times = clock::calls(&mut candidates, 1000, 300);
    line(case.name, "ns", &times, 1, &case.libraries, 1);
}

fn decoding(case: &mut Case) {
    let mut ours = Packets { packets: [[0; 128]; 32] };
    let mut theirs = [[0; 128]; 32];
    let (rows, packets) = (case.rows, case.packets);
    let (decode, in_rust) = (case.ours.1, case.rust.1);
    let mut one = || unsafe { decode(rows.as_ptr(), rows.len(), &mut ours) };
    let mut two = || in_rust(&rows, &mut theirs);
    case.libraries.retain(|library| library.decode.is_some());
    let mut candidates: Vec<&mut dyn FnMut()> = vec![&mut one, &mut two];
    candidates.extend(case.libraries.iter_mut().filter_map(|library| library.decode.as_mut().map(|f| f as &mut dyn FnMut())));
    let times: Vec<f64> = clock::calls(&mut candidates, 4, 300).iter().map(|time| time / 1e3).collect();
    assert!(ours.packets == packets && theirs == packets, "{}: packets differ", case.name);
    for packet in case.libraries.iter().filter_map(|library| library.packet.as_ref()) {
        assert!((0..32).all(|k| (0..128).all(|s| packet(k, s) == packets[k][s])), "{}: a library differs", case.name);
    }
    line(case.name, "us", &times, 1, &case.libraries, 2);
}

pub fn measure() {
    let mut cases = cases();
    println!("Row subtraction, 32 coefficients and 128 symbols: nanoseconds");
    println!("{:<10}{:>10}{:>10}{:>8}   libraries", "field", "proved", "Rust", "ratio");
    cases.iter_mut().for_each(subtraction);
    println!("\nDecoding 32 packets from 32 woven rows: microseconds");
    println!("{:<10}{:>10}{:>10}{:>8}   libraries", "field", "proved", "Rust", "ratio");
    cases.iter_mut().for_each(decoding);
}
