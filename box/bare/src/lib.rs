//! The Rust package without an operating system: an inversion, a value and a refusal, a valve, and a curve in whole numbers. `main`
//! answers 0 where all are as they should be; box/rust links it to a C library's start and runs it on an emulated Cortex-M4F.
#![no_std]

use simmerstoat::whole::{monotone, turns_back, Turning};
use simmerstoat::{basis::CatmullRom, basis::Hermite, spline, spline_inverse, valve, Refusal};

#[panic_handler]
fn panic(_: &core::panic::PanicInfo) -> ! {
    loop {}
}

#[no_mangle]
pub extern "C" fn main() -> i32 {
    let depths = [0.0, 0.0, 0.1, 0.3, 1.0, 1.0];
    let Ok(place) = spline_inverse::<CatmullRom, f64>(0.3, &depths) else { return 1 };
    let Ok(value) = spline::<CatmullRom, f64, f64>(place.parameter, &depths) else { return 2 };
    if !(value - 0.3 < 1e-9 && 0.3 - value < 1e-9) {
        return 3;
    }
    let mistyped = [0.0, 0.0, 0.1, 0.03, 1.0, 1.0];
    if !matches!(spline_inverse::<CatmullRom, f64>(0.3, &mistyped), Err(Refusal::TurnsBack(2))) {
        return 4;
    }
    if valve::mix(128, &[5, 5, 5, 5]) != Ok(5 * valve::WHOLE) || valve::mix(0, &[5, 5, 1_000_001, 5]) != Err(Refusal::BadKnot(2)) {
        return 5;
    }
    let night = [0, 0, 100, 5000, 5050, 5100, 5150, 5200];
    let mut table = [0; 16];
    if turns_back::<CatmullRom>(&night) != Ok(Turning::At(0)) || monotone(&night, &mut table) != Ok(16) {
        return 6;
    }
    if turns_back::<Hermite>(&table) != Ok(Turning::Never) || monotone(&night, &mut table[..15]) != Err(Refusal::ShortBuffer) {
        return 7;
    }
    0
}
