//! The stored pages: the engine alone gives each of them byte for byte, those of the sample
//! routines from the images of their texts.

use compare::engine::{self, PageReply};
use image::find::refusal_line;
use image::parse;
use second::bytes::words;
use second::engine::WORK_WORDS;
use second::Refusal;
use std::path::{Path, PathBuf};

fn repository() -> PathBuf {
    Path::new(env!("CARGO_MANIFEST_DIR")).join("../..")
}

fn read(name: &str) -> Vec<u8> {
    std::fs::read(repository().join(name)).unwrap_or_else(|error| panic!("{name}: {error}"))
}

/// The engine's reply, and the page, which is lent with no byte to spare.
fn paged(image: &[u32]) -> (PageReply, Vec<u8>) {
    let mut page = vec![b'#'; 31 * image[0] as usize];
    let reply = engine::page(image, &mut page, &mut vec![1; WORK_WORDS]);
    (reply, page)
}

#[test]
fn the_greatest_page() {
    let (reply, page) = paged(&words(&read("tests/pages/greatest.image")));
    assert_eq!(reply, PageReply { refusal: 0, place: 0 });
    assert!(page == read("tests/pages/greatest.page"));
}

/// A routine that is refused has its refusal stored, as the image tool says it.
#[test]
fn pages_of_the_sample_routines() {
    let (mut written, mut refused) = (0, 0);
    for entry in std::fs::read_dir(repository().join("examples")).expect("the samples") {
        let path = entry.expect("a sample").path();
        if path.extension().is_none_or(|extension| extension != "pi") {
            continue;
        }
        let name = path.file_stem().expect("a name").to_string_lossy();
        let text = String::from_utf8(read(&format!("examples/{name}.pi"))).expect("a text");
        let listing = parse(&text).unwrap_or_else(|fault| panic!("{name}: {fault}"));
        let (reply, page) = paged(&listing.image());
        let given = match reply.refusal {
            0 => {
                written += 1;
                page
            }
            number => {
                refused += 1;
                let refusal = Refusal::new(number as u32, reply.place as u32);
                refusal_line(&format!("examples/{name}.pi"), &listing, refusal).into_bytes()
            }
        };
        assert_eq!(given, read(&format!("examples/{name}.page")), "{name}");
    }
    assert!(written > 5 && refused > 0, "{written} written, {refused} refused");
}
