//! What failures, returns and crashes leave.

#[allow(dead_code)]
#[path = "../src/errno.rs"]
mod errno;

use assise::{Cluster, Lost, Refusal, Revoker, Stat};

#[test]
fn what_is_synced_is_kept() {
    let cluster = Cluster::new(3, 64, 64).unwrap();
    let writer = cluster.open(1).unwrap();
    writer.create("/kept").unwrap();
    writer.write("/kept", b"synced", 0).unwrap();
    writer.fsync().unwrap();
    writer.write("/kept", b"behind", 0).unwrap();
    writer.create("/lost").unwrap();
    assert_eq!(cluster.fail(1).unwrap(), [Lost { client: 1, first_call: 3 }]);

    let reader = cluster.open(2).unwrap();
    assert_eq!(reader.read_all("/kept").unwrap(), b"synced");
    assert_eq!(reader.list("/").unwrap(), ["kept"]);
    assert!(cluster.is_legal().unwrap());
}

#[test]
fn each_client_of_the_node_has_its_own_loss() {
    let cluster = Cluster::new(2, 64, 64).unwrap();
    let clients: Vec<_> = (0..3).map(|_| cluster.open(1).unwrap()).collect();
    clients[0].mkdir("/a").unwrap();
    clients[0].mkdir("/b").unwrap();
    clients[0].mkdir("/c").unwrap();
    clients[0].fsync().unwrap();
    clients[0].create("/a/lost").unwrap();
    clients[1].create("/b/kept").unwrap();
    clients[1].fsync().unwrap();
    clients[2].create("/c/kept").unwrap();
    clients[2].fsync().unwrap();
    clients[2].create("/c/lost").unwrap();
    clients[2].unlink("/c/kept").unwrap();
    let lost = [Lost { client: 1, first_call: 4 }, Lost { client: 3, first_call: 2 }];
    assert_eq!(cluster.fail(1).unwrap(), lost);
    let reader = cluster.open(2).unwrap();
    assert_eq!(reader.list("/a").unwrap(), [""; 0]);
    assert_eq!(reader.list("/b").unwrap(), ["kept"]);
    assert_eq!(reader.list("/c").unwrap(), ["kept"]);
}

#[test]
fn a_client_of_a_failed_node_is_over() {
    let cluster = Cluster::new(2, 64, 64).unwrap();
    let client = cluster.open(1).unwrap();
    assert_eq!(cluster.fail(1).unwrap(), []);
    let error = client.list("/").unwrap_err();
    assert_eq!(Refusal::of(&error), Some(Refusal::NodeDown));
    assert_eq!(Refusal::NodeDown.errno(), errno::EIO);

    cluster.back(1).unwrap();
    assert!(client.list("/").is_err());
    assert!(cluster.open(1).unwrap().list("/").unwrap().is_empty());
}

#[test]
fn what_another_read_is_kept() {
    let cluster = Cluster::new(2, 64, 64).unwrap();
    let (writer, reader) = (cluster.open(1).unwrap(), cluster.open(2).unwrap());
    writer.create("/file").unwrap();
    writer.write("/file", b"seen", 0).unwrap();
    assert_eq!(reader.read_all("/file").unwrap(), b"seen");
    cluster.fail(1).unwrap();
    assert_eq!(reader.read_all("/file").unwrap(), b"seen");
}

/// Changes alone are made again, and such as were lost alone: an answer of the tree's error, a read and a sync aren't.
#[test]
fn what_is_lost_is_made_again() {
    let cluster = Cluster::new(3, 64, 64).unwrap();
    let writer = cluster.open(1).unwrap();
    writer.write_all("/kept", "synced").unwrap();
    writer.fsync().unwrap();
    writer.mkdir("/box").unwrap();
    writer.write_all("/box/letter", "first").unwrap();
    writer.read_all("/box/letter").unwrap();
    writer.mkdir("/box").unwrap_err();
    writer.write("/box/letter", "F", 0).unwrap();
    writer.rename("/box/letter", "/box/sent").unwrap();
    writer.unlink("/kept").unwrap();
    let [lost] = cluster.fail(1).unwrap()[..] else { panic!("one client lost calls") };

    let client = cluster.open(2).unwrap();
    assert_eq!(client.list("/").unwrap(), ["kept"]);
    client.redo(lost).unwrap();
    assert_eq!(client.list("/").unwrap(), ["box"]);
    assert_eq!(client.list("/box").unwrap(), ["sent"]);
    assert_eq!(client.read_all("/box/sent").unwrap(), b"First");
    assert!(cluster.is_legal().unwrap());
}

/// What another client did since is in the way: the second change isn't made, and who goes on with the next makes the third.
#[test]
fn a_change_that_cannot_be_made_is_told() {
    let cluster = Cluster::new(2, 64, 64).unwrap();
    let writer = cluster.open(1).unwrap();
    writer.mkdir("/a").unwrap();
    writer.mkdir("/b").unwrap();
    writer.mkdir("/c").unwrap();
    let [lost] = cluster.fail(1).unwrap()[..] else { panic!("one client lost calls") };

    let client = cluster.open(2).unwrap();
    client.create("/b").unwrap();
    let unmade = client.redo(lost).unwrap_err();
    assert_eq!((unmade.first, unmade.error.raw_os_error()), (Lost { client: 1, first_call: 1 }, Some(errno::EEXIST)));
    assert_eq!(client.list("/").unwrap(), ["a", "b"]);
    client.redo(Lost { first_call: 2, ..unmade.first }).unwrap();
    assert_eq!(client.list("/").unwrap(), ["a", "b", "c"]);
}

/// A failure behind a redo takes of it what isn't synced, which is made again by a third client.
#[test]
fn what_is_made_again_may_be_lost_again() {
    let cluster = Cluster::new(3, 64, 64).unwrap();
    let writer = cluster.open(1).unwrap();
    writer.write_all("/file", "text").unwrap();
    let mut client = writer;
    for node in [1, 2] {
        let lost = cluster.fail(node).unwrap();
        client = cluster.open(node + 1).unwrap();
        assert!(client.list("/").unwrap().is_empty());
        lost.iter().for_each(|lost| client.redo(*lost).unwrap());
    }
    assert_eq!(client.read_all("/file").unwrap(), b"text");
}

/// What a client loses once another read what its first write behind an fsync wrote, which is its record 3, of eleven behind.
fn loss_with(revoker: Revoker) -> Vec<Lost> {
    let cluster = Cluster::new(2, 64, 64).unwrap();
    let writer = cluster.open_with(1, revoker).unwrap();
    writer.create("/seen").unwrap();
    writer.create("/other").unwrap();
    writer.fsync().unwrap();
    writer.write("/seen", "x", 0).unwrap();
    for at in 0..10 {
        writer.write("/other", "x", at).unwrap();
    }
    cluster.open(2).unwrap().read_all("/seen").unwrap();
    cluster.fail(1).unwrap()
}

#[test]
fn a_revoker_says_how_much_is_kept() {
    assert_eq!(loss_with(Revoker::Least), [Lost { client: 1, first_call: 4 }]);
    // Records 4 to 8 are those of the calls 4 to 8.
    assert_eq!(loss_with(Revoker::Eights), [Lost { client: 1, first_call: 9 }]);
    assert_eq!(loss_with(Revoker::Whole), []);
}

#[test]
fn a_node_that_comes_back_has_all() {
    let cluster = Cluster::new(2, 64, 64).unwrap();
    cluster.fail(1).unwrap();
    let writer = cluster.open(2).unwrap();
    writer.write_all("/file", "text").unwrap();
    cluster.back(1).unwrap();
    writer.fsync().unwrap();
    cluster.fail(2).unwrap();
    assert_eq!(cluster.open(1).unwrap().read_all("/file").unwrap(), b"text");
    assert!(cluster.is_legal().unwrap());
}

#[test]
fn a_crash_keeps_what_was_written() {
    let cluster = Cluster::new(2, 64, 64).unwrap();
    let client = cluster.open(1).unwrap();
    client.create("/file").unwrap();
    let clone = client.clone();
    client.crash().unwrap();
    assert_eq!(Refusal::of(&clone.fsync().unwrap_err()), Some(Refusal::ClientGone));
    assert_eq!(cluster.open(2).unwrap().stat("/file").unwrap(), Stat::File { bytes: 0 });
    assert_eq!(cluster.fail(1).unwrap(), []);
}

/// What a crash leaves to be replicated is lost with the node before, and kept behind the rounds.
#[test]
fn a_crash_is_no_sync() {
    for (is_replicated, lost) in [(false, vec![Lost { client: 1, first_call: 0 }]), (true, vec![])] {
        let cluster = Cluster::new(2, 64, 64).unwrap();
        let client = cluster.open(1).unwrap();
        client.create("/file").unwrap();
        client.crash().unwrap();
        while is_replicated && cluster.round().unwrap() {}
        assert_eq!(cluster.fail(1).unwrap(), lost);
    }
}

/// A client that is dropped stays open: its number is spent, others get at its files, and what it didn't sync goes with its node.
#[test]
fn a_drop_does_nothing() {
    let cluster = Cluster::new(2, 64, 64).unwrap();
    let before = cluster.entries().unwrap();
    let writer = cluster.open(1).unwrap();
    writer.create("/seen").unwrap();
    writer.create("/other").unwrap();
    writer.fsync().unwrap();
    writer.write("/seen", "text", 0).unwrap();
    writer.write("/other", "text", 0).unwrap();
    drop(writer);
    assert_eq!(cluster.entries().unwrap(), before + 6);
    let reader = cluster.open(2).unwrap();
    assert_eq!(reader.number(), 2);
    assert_eq!(reader.read_all("/seen").unwrap(), b"text");
    assert_eq!(cluster.fail(1).unwrap(), [Lost { client: 1, first_call: 4 }]);
    assert_eq!(reader.read_all("/other").unwrap(), b"");
    assert_eq!(Refusal::of(&cluster.crash(1).unwrap_err()), Some(Refusal::NodeDown));
}

#[test]
fn a_log_that_is_full_is_synced() {
    let cluster = Cluster::new(2, 8, 64).unwrap();
    let client = cluster.open(1).unwrap();
    client.create("/file").unwrap();
    for number in 0..200_u8 {
        client.write("/file", [number], u64::from(number)).unwrap();
    }
    assert_eq!(client.stat("/file").unwrap(), Stat::File { bytes: 200 });
    client.fsync().unwrap();
    while cluster.round().unwrap() {}
    assert!(!cluster.round().unwrap());
}

#[test]
fn a_history_has_an_entry_for_each_call() {
    let cluster = Cluster::new(2, 64, 64).unwrap();
    let before = cluster.entries().unwrap();
    let client = cluster.open(1).unwrap();
    client.create("/file").unwrap();
    assert!(client.create("/file").is_err());
    assert!(client.create("file").is_err());
    cluster.fail(1).unwrap();
    cluster.back(1).unwrap();
    // The client, its two calls, which the tree answers, the failure, and the return.
    assert_eq!(cluster.entries().unwrap(), before + 5);
    assert!(cluster.is_legal().unwrap());
}
