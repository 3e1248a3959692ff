//! Has the linker lead each call of the four functions of the C library to `main.rs` first. Only
//! this program is linked so: the others call the C library as any Rust program does.

const FUNCTIONS: [&str; 4] = ["exp", "log", "log1p", "expm1"];

fn main() {
    for function in FUNCTIONS {
        println!("cargo::rustc-link-arg-bins=-Wl,--wrap={function}");
    }
    println!("cargo::rerun-if-changed=build.rs");
}
