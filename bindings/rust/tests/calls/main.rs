//! Holds the crate to the sheets and cases of the repository that it stands in, and to what its own text promises.

mod cases;
mod edges;
mod files;
mod runs_and_books;
mod sheets;
mod threads;
