//! The examples of document 01 and of requests One, Three, Four, Five and Seven, answer by answer, against the library and against the plain model.
use checks::{examples, Library, Model};
use std::process::exit;

fn main() {
    let library = examples::run("the library", |asked| examples::answer(&Library, asked));
    let model = examples::run("the plain model", |asked| examples::answer(&Model, asked));
    if library + model > 0 {
        exit(1);
    }
}
