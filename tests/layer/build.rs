// Links the C function that measures stack.
include!("../c.rs");

fn main() {
    link_c("stack", &[("stack.c", &["-O2"])]);
}
