//! Names the given text's files to the compiler, where the text is at hand; without it the crate builds too, and
//! `text::AT_HAND` is false.

mod given;

fn main() {
    if let Some(text) = given::find() {
        given::declare(&text);
    }
}
