//! The model on a pipe, in the record format of the program recorder.

fn main() {
    model::record::serve(
        std::io::BufReader::with_capacity(1 << 16, std::io::stdin()),
        std::io::BufWriter::new(std::io::stdout()),
    );
}
