// The set-up of examples/square_wave by a program in Rust that writes the registers itself, as one over a register crate does.
//
// No library of Rust is needed, not even `core`, whose parts that the compiler asks for stand here: so any rustc builds it.
#![feature(no_core, lang_items, intrinsics, rustc_attrs)]
#![allow(internal_features)]
#![no_core]

#[lang = "pointee_sized"]
pub trait PointeeSized {}
#[lang = "meta_sized"]
pub trait MetaSized: PointeeSized {}
#[lang = "sized"]
pub trait Sized: MetaSized {}
#[lang = "copy"]
pub trait Copy {}
impl Copy for u32 {}

#[rustc_intrinsic]
pub unsafe fn volatile_store<T>(to: *mut T, value: T);

// RP2040 Datasheet, sections 2.14.3 (with the alias that clears bits), 2.19.6.1 and 3.7.
const RESET_CLEAR: u32 = 0x4000_f000;
const GPIO16_CTRL: u32 = 0x4001_4084;
const PIO0_CTRL: u32 = 0x5020_0000;
const INSTR_MEM4: u32 = 0x5020_0058;
const SM0_CLKDIV: u32 = 0x5020_00c8;
const SM0_EXECCTRL: u32 = 0x5020_00cc;
const SM0_INSTR: u32 = 0x5020_00d8;
const SM0_PINCTRL: u32 = 0x5020_00dc;

fn write(register: u32, value: u32) {
    unsafe { volatile_store(register as *mut u32, value) }
}

#[no_mangle]
pub extern "C" fn main() -> ! {
    write(RESET_CLEAR, 0x400);
    write(GPIO16_CTRL, 6);
    // set pindirs, 1; set pins, 1 [1]; set pins, 0; jmp 5
    write(INSTR_MEM4, 0xe081);
    write(0x5020_005c, 0xe101);
    write(0x5020_0060, 0xe000);
    write(0x5020_0064, 0x0005);
    write(SM0_CLKDIV, 0x0002_8000);
    write(SM0_EXECCTRL, 0x7200);
    write(SM0_PINCTRL, 0x0400_0200);
    write(SM0_INSTR, 0x0004);
    write(PIO0_CTRL, 1);
    loop {}
}
