//! What of a client's calls is safe, by how it was opened.

use assise::{limits, Client, Cluster, Durability, Lost, Options, Refusal, Revoker, Stat};
use std::io;

const OPTIMISTIC: Durability = Durability::Optimistic;
const BOTH: [Durability; 2] = [Durability::Pessimistic, OPTIMISTIC];

fn cluster() -> Cluster {
    Cluster::new(2, 64, 64).expect("a cluster")
}

/// A client on node 1.
fn opened(cluster: &Cluster, durability: Durability) -> Client {
    cluster.open_as(1, Options::new().durability(durability)).expect("a client")
}

/// How many calls were answered, and how many no failure can take any more.
fn counts(client: &Client) -> (u64, u64) {
    (client.answered().expect("a count"), client.replicated().expect("a count"))
}

#[test]
fn a_sync_makes_all_calls_safe() {
    let cluster = cluster();
    let client = cluster.open(1).unwrap();
    assert_eq!(counts(&client), (0, 0));
    client.create("/file").unwrap();
    assert_eq!(counts(&client), (1, 0));
    client.fsync().unwrap();
    assert_eq!(counts(&client), (2, 2));
    client.write("/file", "text", 0).unwrap();
    client.stat("/file").unwrap();
    assert_eq!(counts(&client), (4, 2));
    client.dsync().unwrap();
    assert_eq!(counts(&client), (5, 5));
    assert_eq!(cluster.fail(1).unwrap(), []);
}

/// A call that changes nothing is safe where all before it are.
#[test]
fn all_that_is_answered_counts() {
    let cluster = cluster();
    let client = cluster.open(1).unwrap();
    client.stat("/").unwrap();
    assert!(client.stat("/none").is_err());
    assert_eq!(counts(&client), (2, 2));
    assert_eq!(Refusal::of(&client.stat("none").unwrap_err()), Some(Refusal::NotAbsolute));
    assert_eq!(counts(&client), (2, 2));
    // One call makes the file, and three write it: in each, the path takes room.
    client.write_all("/file", [1; 2 * limits::CALL_BYTES]).unwrap();
    assert_eq!(counts(&client), (6, 2));
}

#[test]
fn an_fsync_is_a_sync_unless_its_client_is_optimistic() {
    for (durability, safe) in [(Durability::Pessimistic, 2), (OPTIMISTIC, 0)] {
        let cluster = cluster();
        let client = opened(&cluster, durability);
        client.create("/file").unwrap();
        client.fsync().unwrap();
        client.write("/file", "text", 0).unwrap();
        assert_eq!(counts(&client), (3, safe));
        assert_eq!(cluster.fail(1).unwrap(), [Lost { client: 1, first_call: safe }]);
        assert_eq!(client.answered().unwrap(), 3);
        let reader = cluster.open(2).unwrap();
        assert_eq!(reader.stat("/file").is_ok(), durability == Durability::Pessimistic);
        assert!(cluster.is_legal().unwrap());
    }
}

#[test]
fn a_dsync_is_a_sync_of_each_client() {
    for durability in BOTH {
        let cluster = cluster();
        let client = opened(&cluster, durability);
        client.write_all("/file", "text").unwrap();
        client.write("/file", "more", 0).unwrap();
        client.create("/gone").unwrap();
        client.unlink("/gone").unwrap();
        client.dsync().unwrap();
        assert_eq!(counts(&client), (6, 6));
        assert_eq!(cluster.fail(1).unwrap(), []);
        let reader = cluster.open(2).unwrap();
        assert_eq!(reader.list("/").unwrap(), ["file"]);
        assert_eq!(reader.read_all("/file").unwrap(), b"more");
        assert!(cluster.is_legal().unwrap());
    }
}

#[test]
fn a_file_is_synced_as_its_client_is() {
    for (durability, lost) in [(Durability::Pessimistic, vec![]), (OPTIMISTIC, vec![Lost { client: 1, first_call: 0 }])] {
        let cluster = cluster();
        let file = opened(&cluster, durability).create_file("/file").unwrap();
        file.sync_all().unwrap();
        assert_eq!(cluster.fail(1).unwrap(), lost);
    }
}

/// Nothing that another client has seen is lost, whatever the writer's fsync promises.
#[test]
fn what_another_client_read_is_safe() {
    for durability in BOTH {
        let cluster = cluster();
        let writer = opened(&cluster, durability);
        writer.create("/file").unwrap();
        writer.write("/file", "seen", 0).unwrap();
        assert_eq!(counts(&writer), (2, 0));
        assert_eq!(cluster.open(2).unwrap().read_all("/file").unwrap(), b"seen");
        assert_eq!(counts(&writer), (2, 2));
        assert_eq!(cluster.fail(1).unwrap(), []);
    }
}

/// A failure takes exactly what wasn't safe before it.
#[test]
fn a_revoker_says_how_much_is_safe() {
    for (revoker, safe) in [(Revoker::Least, 3), (Revoker::Whole, 4)] {
        let cluster = cluster();
        let writer = cluster.open_as(1, Options::new().revoker(revoker).durability(OPTIMISTIC)).unwrap();
        writer.create("/seen").unwrap();
        writer.create("/other").unwrap();
        writer.write("/seen", "text", 0).unwrap();
        writer.write("/other", "text", 0).unwrap();
        assert_eq!(counts(&writer), (4, 0));
        cluster.open(2).unwrap().read_all("/seen").unwrap();
        assert_eq!(counts(&writer), (4, safe));
        let lost = Lost { client: 1, first_call: safe };
        assert_eq!(cluster.fail(1).unwrap(), [lost][..usize::from(safe < 4)]);
    }
}

/// On one node, each call is on all full nodes once it is answered.
#[test]
fn on_one_node_all_is_safe() {
    let cluster = Cluster::new(1, 64, 64).unwrap();
    let client = opened(&cluster, OPTIMISTIC);
    client.create("/file").unwrap();
    assert_eq!(counts(&client), (1, 1));
    client.write("/file", "text", 0).unwrap();
    assert_eq!(counts(&client), (2, 2));
}

#[test]
fn a_crash_has_all_made_safe_by_rounds() {
    let cluster = cluster();
    let client = opened(&cluster, OPTIMISTIC);
    client.create("/file").unwrap();
    client.clone().crash().unwrap();
    assert_eq!(counts(&client), (1, 0));
    while cluster.round().unwrap() {}
    assert_eq!(counts(&client), (1, 1));
    assert_eq!(cluster.fail(1).unwrap(), []);
}

/// What a program does that keeps its calls until they are safe: it makes the lost ones again, by another client.
#[test]
fn a_program_goes_on_where_its_calls_were_lost() {
    let cluster = cluster();
    let first = opened(&cluster, OPTIMISTIC);
    let calls: [fn(&Client) -> io::Result<()>; 4] =
        [|client| client.create("/log"), |client| client.write("/log", "ab", 0), Client::dsync, |client| client.write("/log", "cd", 2)];
    for call in calls {
        call(&first).unwrap();
    }
    let [lost] = cluster.fail(1).unwrap()[..] else { panic!("one client") };
    let second = cluster.open(2).unwrap();
    for call in &calls[lost.first_call as usize..] {
        call(&second).unwrap();
    }
    assert_eq!((lost.first_call, second.answered().unwrap()), (3, 1));
    assert_eq!(second.read_all("/log").unwrap(), b"abcd");
}

/// A full log is no end for a client whose fsync waits for nothing: its dsync makes room.
#[test]
fn a_dsync_makes_room_in_a_log() {
    let cluster = Cluster::new(2, 8, 64).unwrap();
    let client = opened(&cluster, OPTIMISTIC);
    client.create("/file").unwrap();
    for at in 0..100 {
        let written = client.write("/file", [1], at);
        if let Err(error) = written {
            assert_eq!(Refusal::of(&error), Some(Refusal::LogFull));
            client.dsync().unwrap();
            client.write("/file", [1], at).unwrap();
        }
    }
    assert_eq!(client.stat("/file").unwrap(), Stat::File { bytes: 100 });
    assert!(cluster.is_legal().unwrap());
}
