//! How a build ends that can't go on.

use std::process::exit;

pub fn stop(why: &str) -> ! {
    eprintln!("giellavor: {why}");
    exit(1)
}
