//! Each refusal that a program in Rust can come to while there is memory, but for those of a call that waits, which are in `standings.rs`
//! and `safety.rs`. The others need a million files, a write that no desk holds, or no cluster.

use assise::{limits, Client, Cluster, Refusal};
use std::error::Error;
use std::fmt::Debug;
use std::io::{self, ErrorKind};

fn refusal<T: Debug>(result: io::Result<T>) -> Option<Refusal> {
    Refusal::of(&result.expect_err("an error"))
}

fn client() -> Client {
    Cluster::new(1, 64, 64).and_then(|cluster| cluster.open(1)).expect("a client")
}

#[test]
fn a_cluster_has_limits() {
    let (least, most, hot) = (limits::LEAST_LOG, limits::MOST_LOG, limits::MOST_HOT);
    for (nodes, log, hot) in [(1, least, 1), (limits::MOST_NODES, most, hot)] {
        assert!(Cluster::new(nodes, log, hot).is_ok());
    }
    let nodes = [(0, least, 1), (limits::MOST_NODES + 1, least, 1), (u32::MAX, least, 1)];
    let logs = [(1, least - 1, 1), (1, most + 1, 1), (1, u64::MAX, 1)];
    for (nodes, log, hot) in nodes.into_iter().chain(logs).chain([(1, least, 0), (1, least, hot + 1)]) {
        assert_eq!(refusal(Cluster::new(nodes, log, hot)), Some(Refusal::BadRequest));
    }
}

#[test]
fn nodes_are_there_or_not() {
    let cluster = Cluster::new(2, 64, 64).unwrap();
    for node in [0, 3, u32::MAX] {
        assert_eq!(refusal(cluster.open(node)), Some(Refusal::BadNode));
        assert_eq!(refusal(cluster.fail(node)), Some(Refusal::BadNode));
        assert_eq!(refusal(cluster.back(node)), Some(Refusal::BadNode));
    }
    assert_eq!(refusal(cluster.back(1)), Some(Refusal::WrongPhase));
    cluster.fail(1).unwrap();
    assert_eq!(refusal(cluster.fail(1)), Some(Refusal::WrongPhase));
    assert_eq!(refusal(cluster.fail(2)), Some(Refusal::LastNode));
    assert_eq!(refusal(cluster.open(1)), Some(Refusal::NodeDown));
    cluster.back(1).unwrap();
    assert_eq!(refusal(cluster.back(1)), Some(Refusal::WrongPhase));
}

#[test]
fn clients_are_there_or_not() {
    let cluster = Cluster::new(2, 64, 64).unwrap();
    for client in [0, 1, limits::MOST_CLIENTS + 1, u32::MAX] {
        assert_eq!(refusal(cluster.crash(client)), Some(Refusal::BadClient));
    }
    for number in 1..=limits::MOST_CLIENTS {
        let client = cluster.open(1 + number % 2).unwrap();
        assert_eq!(client.number(), number);
        client.crash().unwrap();
        assert_eq!(refusal(cluster.crash(number)), Some(Refusal::ClientGone));
    }
    assert_eq!(refusal(cluster.open(1)), Some(Refusal::BadClient));
}

/// All calls of a client that is over.
fn all_refused(client: &Client, why: Refusal) {
    let done = [
        client.create("/new"),
        client.mkdir("/new"),
        client.write("/file", "text", 0),
        client.write_all("/file", "text"),
        client.truncate("/file", 0),
        client.rename("/file", "/new"),
        client.unlink("/file"),
        client.rmdir("/box"),
        client.fsync(),
        client.dsync(),
    ];
    for result in done {
        assert_eq!(refusal(result), Some(why));
    }
    assert_eq!(refusal(client.stat("/")), Some(why));
    assert_eq!(refusal(client.list("/")), Some(why));
    assert_eq!(refusal(client.read_dir("/")), Some(why));
    assert_eq!(refusal(client.read("/file", &mut [], 0)), Some(why));
    assert_eq!(refusal(client.read_all("/file")), Some(why));
    assert_eq!(refusal(client.open_file("/file")), Some(why));
    assert_eq!(refusal(client.create_file("/file")), Some(why));
    assert_eq!(refusal(client.clone().crash()), Some(why));
}

#[test]
fn a_client_that_is_over_is_refused() {
    let cluster = Cluster::new(2, 64, 64).unwrap();
    let client = cluster.open(1).unwrap();
    client.create("/file").unwrap();
    client.fsync().unwrap();
    cluster.fail(1).unwrap();
    all_refused(&client, Refusal::NodeDown);
    cluster.back(1).unwrap();
    all_refused(&client, Refusal::NodeDown);

    let client = cluster.open(1).unwrap();
    client.clone().crash().unwrap();
    all_refused(&client, Refusal::ClientGone);
    assert_eq!(cluster.open(2).unwrap().list("/").unwrap(), ["file"]);
}

#[test]
fn paths_are_looked_at() {
    let client = client();
    let wrong = [
        ("", Refusal::NotAbsolute),
        ("file", Refusal::NotAbsolute),
        ("//", Refusal::EmptyName),
        ("/a//b", Refusal::EmptyName),
        ("/a/", Refusal::EmptyName),
        ("/.", Refusal::BadName),
        ("/..", Refusal::BadName),
        ("/a\0b", Refusal::BadName),
    ];
    for (path, why) in wrong {
        assert_eq!(refusal(client.create(path)), Some(why));
        assert_eq!(refusal(client.rename("/", path)), Some(why));
        assert_eq!(refusal(client.list(path)), Some(why));
        assert_eq!(refusal(client.read_all(path)), Some(why));
        assert_eq!(refusal(client.write(path, "text", 0)), Some(why));
    }
    let longest = format!("/{}", "x".repeat(limits::MOST_NAME_BYTES));
    client.create(&longest).unwrap();
    assert_eq!(refusal(client.create(longest + "x")), Some(Refusal::NameTooLong));
    assert_eq!(client.create("/x".repeat(limits::MOST_NAMES)).unwrap_err().kind(), ErrorKind::NotFound);
    assert_eq!(refusal(client.create("/x".repeat(limits::MOST_NAMES + 1))), Some(Refusal::TooDeep));
}

#[test]
fn a_request_has_limits() {
    let client = client();
    let most = "x".repeat(limits::CALL_BYTES);
    for path in [most.clone(), most.clone() + "x", "/x".repeat(limits::CALL_BYTES)] {
        let why = if path == most { Refusal::NotAbsolute } else { Refusal::BadRequest };
        assert_eq!(refusal(client.create(&path)), Some(why));
        assert_eq!(refusal(client.write(&path, "", 0)), Some(why));
        assert_eq!(refusal(client.write(&path, "text", 0)), Some(Refusal::BadRequest));
    }
    assert_eq!(refusal(client.rename("/x", most)), Some(Refusal::BadRequest));
}

#[test]
fn refusals_are_errors() {
    let error = client().create("file").unwrap_err();
    assert_eq!(error.kind(), ErrorKind::InvalidInput);
    assert_eq!(error.to_string(), "the path doesn't begin with a slash");
    assert_eq!(error.raw_os_error(), None);

    let error = io::Error::from(Refusal::OutOfMemory);
    assert_eq!((error.kind(), Refusal::of(&error)), (ErrorKind::OutOfMemory, Some(Refusal::OutOfMemory)));
    let error: Box<dyn Error + Send + Sync> = Box::new(Refusal::Busy);
    assert_eq!(error.to_string(), "each try of the call waited");
    assert_eq!(Refusal::of(&io::Error::from(ErrorKind::NotFound)), None);
}
