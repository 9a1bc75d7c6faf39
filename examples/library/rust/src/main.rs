//! A cluster of two nodes: node 1 fails, and node 2 has what was synced.

use assise::Cluster;
use std::io::{self, Write};

fn main() -> io::Result<()> {
    let cluster = Cluster::new(2, 64, 64)?;
    let mut letter = cluster.open(1)?.create_file("/letter")?;
    letter.write_all(b"synced")?;
    letter.sync_all()?;
    letter.write_all(b", and lost")?;
    for lost in cluster.fail(1)? {
        println!("client {} loses its calls from {} on", lost.client, lost.first_call);
    }
    let text = cluster.open(2)?.read_all("/letter")?;
    println!("{}", String::from_utf8_lossy(&text));
    Ok(())
}
