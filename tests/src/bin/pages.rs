//! Writes the pages of docs/reference.

use a6plan_tests::pages::{all, FOLDER};
use a6plan_tests::tree::repository;
use std::fs;

fn main() {
    let folder = repository().join(FOLDER);
    fs::create_dir_all(&folder).expect("the folder is made");
    for page in all() {
        fs::write(folder.join(page.file), page.text).expect("the page is written");
        println!("{FOLDER}/{}", page.file);
    }
}
