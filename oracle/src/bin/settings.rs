//! The judge of the settings migrator, which is a program of its own: it needs
//! no library, only what the migrator printed.

fn main() {
    std::process::exit(oracle::settings::command::settings());
}
