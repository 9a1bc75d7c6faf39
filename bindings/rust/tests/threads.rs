//! Threads that share a cluster, and what holds it.

use assise::{Client, Cluster, Durability, File, Lost, Options, Phase, ReadDir, Refusal, Revoker, Standing, Stat};
use std::io::Write;
use std::panic::{catch_unwind, AssertUnwindSafe};
use std::thread;

fn goes_between_threads<T: Send + Sync + 'static>() {}

#[test]
fn all_types_go_between_threads() {
    goes_between_threads::<Cluster>();
    goes_between_threads::<Client>();
    goes_between_threads::<File>();
    goes_between_threads::<ReadDir>();
    goes_between_threads::<(Lost, Refusal, Stat)>();
    goes_between_threads::<(Options, Revoker, Durability, Phase, Standing)>();
}

#[test]
fn threads_share_a_cluster() {
    let cluster = Cluster::new(3, 64, 64).unwrap();
    let work = |number: u32| {
        let cluster = cluster.clone();
        move || {
            let (client, path) = (cluster.open(1 + number % 3).unwrap(), format!("/{number}"));
            client.create(&path).unwrap();
            for at in 0..100 {
                client.write(&path, [number as u8], at).unwrap();
            }
            client.fsync().unwrap();
        }
    };
    let threads: Vec<_> = (0..4).map(|number| thread::spawn(work(number))).collect();
    threads.into_iter().for_each(|thread| thread.join().unwrap());

    let reader = cluster.open(1).unwrap();
    for number in 0..4_u8 {
        assert_eq!(reader.read_all(format!("/{number}")).unwrap(), [number; 100]);
    }
    assert!(cluster.is_legal().unwrap());
}

/// A long write and a long read are several calls, and none of another thread comes between.
#[test]
fn long_calls_are_not_parted() {
    let cluster = Cluster::new(2, 64, 64).unwrap();
    let (writer, reader) = (cluster.open(1).unwrap(), cluster.open(2).unwrap());
    let size = 40_000;
    writer.write_all("/file", vec![0; size]).unwrap();
    thread::scope(|scope| {
        scope.spawn(|| (1..=20).for_each(|number| writer.write("/file", vec![number; size], 0).unwrap()));
        for _ in 0..20 {
            let bytes = reader.read_all("/file").unwrap();
            assert!(bytes.len() == size && bytes.iter().all(|byte| *byte == bytes[0]));
        }
    });
}

/// A path whose text can't be had panics before the call.
struct Panics;

impl AsRef<str> for Panics {
    fn as_ref(&self) -> &str {
        panic!("no text")
    }
}

#[test]
fn a_panic_of_the_caller_s_leaves_the_cluster() {
    let client = Cluster::new(1, 64, 64).unwrap().open(1).unwrap();
    assert!(catch_unwind(AssertUnwindSafe(|| client.create(Panics))).is_err());
    assert!(catch_unwind(AssertUnwindSafe(|| client.rename("/", Panics))).is_err());
    assert!(client.list("/").unwrap().is_empty());
}

/// A path that makes a call of its own while it is asked for its text.
struct Calls(Client);

impl AsRef<str> for Calls {
    fn as_ref(&self) -> &str {
        self.0.list("/").expect("an answer");
        "/file"
    }
}

#[test]
fn a_path_may_make_calls() {
    let client = Cluster::new(1, 64, 64).unwrap().open(1).unwrap();
    let path = Calls(client.clone());
    client.write_all(&path, "text").unwrap();
    client.write(&path, "text", 4).unwrap();
    assert_eq!(client.read(&path, &mut [0; 9], 0).unwrap(), 8);
    assert_eq!(client.stat(&path).unwrap(), Stat::File { bytes: 8 });
    assert!(client.list(&path).is_err() && client.read_dir(&path).is_err());
}

#[test]
fn a_cluster_lives_as_long_as_what_holds_it() {
    let client = Cluster::new(1, 64, 64).unwrap().open(1).unwrap();
    let mut file = client.create_file("/file").unwrap();
    let names = client.read_dir("/").unwrap();
    drop(client);
    file.write_all(b"text").unwrap();
    file.sync_all().unwrap();
    drop(file);
    assert_eq!(names.map(Result::unwrap).collect::<Vec<_>>(), ["file"]);
}
