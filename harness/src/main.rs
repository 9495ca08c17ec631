//! The program `harness`.

fn main() -> std::process::ExitCode {
    harness::main()
}
