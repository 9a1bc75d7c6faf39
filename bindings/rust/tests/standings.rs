//! What a cluster tells of its nodes, clients and history, and what is set of its nodes.

use assise::{limits, Cluster, Link, Phase, Refusal, Standing};
use std::fmt::Debug;
use std::io;

fn cluster() -> Cluster {
    Cluster::new(2, 64, 64).expect("a cluster")
}

fn refusal<T: Debug>(result: io::Result<T>) -> Option<Refusal> {
    Refusal::of(&result.expect_err("an error"))
}

#[test]
fn nodes_stand_as_they_failed_and_came_back() {
    let cluster = cluster();
    let phases = || [1, 2].map(|node| cluster.phase(node).unwrap());
    assert_eq!(phases(), [Phase::Full, Phase::Full]);
    cluster.fail(1).unwrap();
    assert_eq!(phases(), [Phase::Down, Phase::Full]);
    cluster.back(1).unwrap();
    assert_eq!(phases(), [Phase::Full, Phase::Full]);
}

#[test]
fn clients_stand_as_they_crashed_and_lost_their_nodes() {
    let cluster = cluster();
    let clients = [1, 2, 1].map(|node| cluster.open(node).unwrap());
    let standings = || [0, 1, 2].map(|client: usize| clients[client].standing().unwrap());
    assert_eq!(standings(), [Standing::Alive; 3]);
    clients[0].clone().crash().unwrap();
    assert_eq!(standings(), [Standing::Crashed, Standing::Alive, Standing::Alive]);
    cluster.fail(1).unwrap();
    let left = [Standing::CutOff, Standing::Alive, Standing::CutOff];
    assert_eq!(standings(), left);
    cluster.back(1).unwrap();
    assert_eq!(standings(), left);
    for (client, node) in clients.iter().zip([1, 2, 1]) {
        assert_eq!(client.home().unwrap(), node);
    }
}

/// What is asked changes nothing, and is no entry.
#[test]
fn a_history_has_entries_and_bytes() {
    let cluster = cluster();
    let client = cluster.open(1).unwrap();
    client.create("/file").unwrap();
    assert_eq!((cluster.entries().unwrap(), cluster.payload().unwrap()), (2, 0));
    client.write("/file", "text", 0).unwrap();
    client.read("/file", &mut [0; 3], 0).unwrap();
    client.list("/").unwrap();
    assert_eq!((cluster.entries().unwrap(), cluster.payload().unwrap()), (5, 4 + 3 + 4));
    assert!(client.write("/none", "text", 0).is_err());
    assert_eq!((cluster.entries().unwrap(), cluster.payload().unwrap()), (6, 4 + 3 + 4 + 4));
    assert!(client.write("none", "text", 0).is_err());
    client.standing().unwrap();
    cluster.phase(1).unwrap();
    assert_eq!((cluster.entries().unwrap(), cluster.payload().unwrap()), (6, 4 + 3 + 4 + 4));
}

#[test]
fn a_node_keeps_more_or_less_hot() {
    let cluster = cluster();
    let client = cluster.open(1).unwrap();
    for name in ["/a", "/b", "/c"] {
        client.write_all(name, name).unwrap();
    }
    client.fsync().unwrap();
    while cluster.round().unwrap() {}
    for hot in [1, limits::MOST_HOT] {
        cluster.set_hot(1, hot).unwrap();
        for name in ["/a", "/b", "/c"] {
            assert_eq!(client.read_all(name).unwrap(), name.as_bytes());
        }
    }
    for hot in [0, limits::MOST_HOT + 1, u64::MAX] {
        assert_eq!(refusal(cluster.set_hot(1, hot)), Some(Refusal::BadRequest));
    }
    cluster.fail(1).unwrap();
    assert_eq!(refusal(cluster.set_hot(1, 1)), Some(Refusal::WrongPhase));
}

/// What a raised node sends to one that isn't waits, and goes on once that is raised, too.
#[test]
fn nodes_are_raised_one_after_another() {
    let cluster = cluster();
    let client = cluster.open(1).unwrap();
    client.create("/file").unwrap();
    cluster.raise(1).unwrap();
    assert_eq!(refusal(client.fsync()), Some(Refusal::Busy));
    assert_eq!(refusal(cluster.raise(1)), Some(Refusal::WrongPhase));
    cluster.raise(2).unwrap();
    client.fsync().unwrap();
    assert_eq!(cluster.fail(1).unwrap(), []);
    assert_eq!(refusal(cluster.raise(1)), Some(Refusal::WrongPhase));
    cluster.back(1).unwrap();
    assert_eq!(refusal(cluster.raise(1)), Some(Refusal::WrongPhase));
    assert_eq!(cluster.open(1).unwrap().list("/").unwrap(), ["file"]);
}

/// A node that isn't raised and sends version 1 is understood by one that is.
#[test]
fn a_raised_node_reads_what_others_send() {
    let cluster = cluster();
    cluster.raise(2).unwrap();
    let client = cluster.open(1).unwrap();
    client.create("/file").unwrap();
    client.fsync().unwrap();
    assert_eq!(cluster.fail(1).unwrap(), []);
}

#[test]
fn there_are_no_other_nodes() {
    let cluster = cluster();
    for node in [0, 3, u32::MAX] {
        assert_eq!(refusal(cluster.phase(node)), Some(Refusal::BadNode));
        assert_eq!(refusal(cluster.set_hot(node, 1)), Some(Refusal::BadNode));
        assert_eq!(refusal(cluster.raise(node)), Some(Refusal::BadNode));
    }
}

/// What a node's link loses, cuts or has a fault for comes to nobody; what it repeats or delays does, in the end.
#[test]
fn a_sync_waits_for_a_link() {
    for link in [Link::Lose, Link::Cut(1), Link::Fault] {
        let cluster = cluster();
        let client = cluster.open(1).unwrap();
        cluster.set_link(1, link).unwrap();
        client.create("/letter").unwrap();
        assert_eq!(refusal(client.fsync()), Some(Refusal::Busy), "{link:?}");
        assert_eq!(client.replicated().unwrap(), 0, "{link:?}");
        cluster.set_link(1, Link::Perfect).unwrap();
        client.fsync().unwrap();
        assert_eq!(client.replicated().unwrap(), 2, "{link:?}");
    }
    for link in [Link::Perfect, Link::Repeat, Link::Delay, Link::Cut(u64::MAX)] {
        let cluster = cluster();
        let client = cluster.open(1).unwrap();
        cluster.set_link(1, link).unwrap();
        client.create("/letter").unwrap();
        client.fsync().unwrap();
        assert_eq!(cluster.fail(1).unwrap(), [], "{link:?}");
    }
    assert_eq!(refusal(cluster().set_link(3, Link::Perfect)), Some(Refusal::BadNode));
}
