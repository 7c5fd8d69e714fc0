//! Every trace in `examples` gives the output stored beside it, and so does the trace of the gate's
//! own run (`crates/replay`).

use std::fs;
use std::path::Path;

use reference::coverage::Coverage;
use reference::generate::generate;
use reference::merging::Merging;
use reference::play::play_text;

fn stored() -> Vec<(String, Vec<u8>, String)> {
    let directory = Path::new(env!("CARGO_MANIFEST_DIR")).join("../examples");
    let entries = fs::read_dir(directory).expect("the examples stand beside this crate");
    let paths = entries.map(|entry| entry.unwrap().path());
    paths
        .filter(|path| {
            path.extension()
                .is_some_and(|extension| extension == "trace")
        })
        .map(|path| {
            let trace = fs::read(&path).unwrap();
            let output = fs::read_to_string(path.with_extension("out")).unwrap();
            (path.display().to_string(), trace, output)
        })
        .collect()
}

#[test]
fn stored_outputs() {
    let stored = stored();
    assert!(stored.len() >= 7);
    for (name, trace, output) in stored {
        assert_eq!(play_text(&trace), output, "{name}");
    }
}

/// Together the examples show every answer and every code.
#[test]
fn the_examples_show_everything() {
    let outputs: String = stored().into_iter().map(|(_, _, output)| output).collect();
    let coverage = Coverage::of(outputs.as_bytes()).unwrap();
    assert!(coverage.complete(), "{}", coverage.report());
}

/// And every way in which a request meets what is pending, in service or in flight, and all that can
/// become of a machine check.
#[test]
fn the_examples_merge_in_every_way() {
    let traces: Vec<u8> = stored()
        .into_iter()
        .flat_map(|(_, trace, _)| trace)
        .collect();
    let merging = Merging::of(&traces[..]).unwrap();
    assert!(merging.missing().is_empty(), "{}", merging.report());
}

/// The examples in the order of their names, then 20,000 generated events of seed 4.
#[test]
fn the_stored_trace() {
    let mut examples = stored();
    examples.sort();
    let mut trace = examples.into_iter().flat_map(|e| e.1).collect::<Vec<u8>>();
    generate(4, 20_000, &mut trace).unwrap();
    let directory = Path::new(env!("CARGO_MANIFEST_DIR")).join("../crates/replay");
    assert!(fs::read(directory.join("stdin")).unwrap() == trace);
    assert!(fs::read_to_string(directory.join("stdout")).unwrap() == play_text(&trace));
}
