//! A cluster is renewed: its files stay, and its clients are over.

use assise::{Client, Cluster, Lost, Phase, Refusal, Revoker, Standing};
use std::fmt::Debug;
use std::io::{self, Read, Write};

fn refusal<T: Debug>(result: io::Result<T>) -> Option<Refusal> {
    Refusal::of(&result.expect_err("an error"))
}

/// A cluster of two nodes with a client on the first, which made a file in a directory and synced nothing.
fn cluster_with_file() -> (Cluster, Client) {
    let cluster = Cluster::new(2, 64, 64).unwrap();
    let client = cluster.open(1).unwrap();
    client.mkdir("/box").unwrap();
    client.write_all("/box/letter", "hello").unwrap();
    (cluster, client)
}

#[test]
fn files_stay_and_the_history_begins_anew() {
    let (cluster, before) = cluster_with_file();
    for _ in 0..100 {
        before.write("/box/letter", "HELLO", 0).unwrap();
    }
    let crashed = cluster.open(2).unwrap();
    crashed.create("/empty").unwrap();
    crashed.crash().unwrap();

    let client = cluster.renew(3, 8, 4, Revoker::Whole).unwrap();
    assert_eq!((client.number(), client.home().unwrap()), (1, 1));
    // It was opened, made a directory and two files, wrote one, and synced.
    assert_eq!(cluster.entries().unwrap(), 6);
    assert_eq!(client.replicated().unwrap(), client.answered().unwrap());
    assert_eq!(client.list("/").unwrap(), ["box", "empty"]);
    assert_eq!(client.read_all("/box/letter").unwrap(), b"HELLO");
    assert_eq!(cluster.phase(3).unwrap(), Phase::Full);
    assert!(cluster.is_legal().unwrap());

    assert_eq!(cluster.fail(1).unwrap(), []);
    assert_eq!(cluster.open(3).unwrap().read_all("/box/letter").unwrap(), b"HELLO");
}

/// The new cluster has a client of the same number, which none of them reaches.
#[test]
fn clients_of_before_are_over() {
    let (cluster, before) = cluster_with_file();
    let mut file = before.open_file("/box/letter").unwrap();
    let mut names = before.read_dir("/").unwrap();
    let client = cluster.renew(2, 64, 64, Revoker::Least).unwrap();
    let entries = cluster.entries().unwrap();

    let gone = Some(Refusal::ClientGone);
    assert_eq!(refusal(before.create("/new")), gone);
    assert_eq!(refusal(before.write("/box/letter", "other", 0)), gone);
    assert_eq!(refusal(before.read_all("/box/letter")), gone);
    assert_eq!(refusal(before.list("/")), gone);
    assert_eq!(refusal(before.stat("/")), gone);
    assert_eq!(refusal(before.dsync()), gone);
    assert_eq!(refusal(before.standing()), gone);
    assert_eq!(refusal(before.clone().crash()), gone);
    assert_eq!(refusal(file.read(&mut [0; 5])), gone);
    assert_eq!(refusal(file.write(b"other")), gone);
    assert_eq!(names.next().unwrap().unwrap(), "box");
    assert!(names.next().is_none());

    assert_eq!(cluster.entries().unwrap(), entries);
    assert_eq!(client.standing().unwrap(), Standing::Alive);
    assert_eq!(client.read_all("/box/letter").unwrap(), b"hello");
}

/// As many clients as there may be, each with a file, in each of several lives.
#[test]
fn all_clients_may_be_opened_again() {
    let cluster = Cluster::new(1, 64, 64).unwrap();
    let mut client = cluster.open(1).unwrap();
    for life in 0..5 {
        for number in 2..=assise::limits::MOST_CLIENTS {
            cluster.open(1).unwrap().create(format!("/{life}.{number}")).unwrap();
        }
        assert_eq!(refusal(cluster.open(1)), Some(Refusal::BadClient));
        let files = client.list("/").unwrap();
        client = cluster.renew(1, 64, 64, Revoker::Least).unwrap();
        assert_eq!(client.list("/").unwrap(), files);
    }
}

#[test]
fn what_is_refused_leaves_the_cluster() {
    let (cluster, client) = cluster_with_file();
    for (nodes, log, hot) in [(0, 64, 64), (17, 64, 64), (2, 7, 64), (2, 4097, 64), (2, 64, 0), (2, 64, 4097)] {
        assert_eq!(refusal(cluster.renew(nodes, log, hot, Revoker::Least)), Some(Refusal::BadRequest));
    }
    // What node 1 sends waits for node 2.
    cluster.raise(1).unwrap();
    assert_eq!(refusal(cluster.renew(2, 64, 64, Revoker::Least)), Some(Refusal::Busy));
    assert_eq!(client.read_all("/box/letter").unwrap(), b"hello");
    assert_eq!(cluster.fail(1).unwrap(), [Lost { client: 1, first_call: 0 }]);
}
