//! Writes the kept answers to `vectors/vectors.bin` and says what is in them.

#[cfg(molangx)]
fn main() {
    use oracle::hosts::has_hosts;
    use oracle::nesting::MOST_NESTING;
    use oracle::vectors::{SEED, Stored, encode, made, path};

    const HELP: &str = "vectors [SEED]\n\n\
        Writes vectors/vectors.bin of the repository from a seed and says what is in it.\n\
        Without one it takes the seed of the file in the repository.\n\
        The format is described in vectors/README.md.";

    let seed = match std::env::args().nth(1).map(|seed| seed.parse()) {
        None => SEED,
        Some(Ok(seed)) => seed,
        Some(Err(_)) => {
            println!("{HELP}");
            return;
        }
    };
    let records = made(seed);
    let bytes = encode(&records);
    let path = path();
    std::fs::create_dir_all(path.parent().expect("a file stands in a folder"))
        .and_then(|()| std::fs::write(&path, &bytes))
        .unwrap_or_else(|why| panic!("{}: {why}", path.display()));

    let (mut trees, mut messages, mut refused) = (0, [0usize; 18], [0usize; 19]);
    let (mut limited, mut hosted) = (0, 0);
    for record in &records {
        if let Stored::Answered { limit, case, .. } = record {
            limited += usize::from(*limit != MOST_NESTING);
            hosted += usize::from(has_hosts(case));
        }
        match record {
            Stored::Answered { answer, .. } if answer.records().is_empty() => trees += 1,
            Stored::Answered { answer, .. } => answer
                .records()
                .iter()
                .for_each(|record| messages[record[0] as usize] += 1),
            Stored::Refused(_, refusal) => refused[refusal.number as usize] += 1,
        }
    }
    println!(
        "seed {seed}: {} records, {} bytes",
        records.len(),
        bytes.len()
    );
    println!("trees: {trees}");
    println!("messages 1 to 17: {:?}", &messages[1..]);
    println!("read under the least limit that they are within: {limited}");
    println!("with hosts' own names: {hosted}");
    println!(
        "turned back, answers 1 to 11, 17 and 18: {:?} {:?}",
        &refused[1..12],
        &refused[17..]
    );
}

#[cfg(not(molangx))]
fn main() {
    eprintln!("vectors: the Rust source is not at hand (MOLANGX_SRC), no answers can be made");
    std::process::exit(1);
}
