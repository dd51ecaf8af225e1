//! The model as a filter: a replay text on standard input, its answers on standard output.
#![forbid(unsafe_code)]

fn main() -> std::io::Result<()> {
    let mut input = std::io::stdin().lock();
    let mut output = std::io::stdout().lock();
    model::replay::run(&mut input, &mut output)
}
