//! Calls of one client, and the errors of the tree.

#[allow(dead_code)]
#[path = "../src/errno.rs"]
mod errno;

use assise::{limits, Client, Cluster, Stat};
use errno::{EEXIST, EFBIG, EINVAL, EISDIR, ENOENT, ENOSPC, ENOTDIR, ENOTEMPTY};
use std::fmt::Debug;
use std::io::{self, ErrorKind};

fn client() -> Client {
    Cluster::new(1, 64, 64).and_then(|cluster| cluster.open(1)).expect("a client")
}

/// The system's number of an error of the tree.
fn number<T: Debug>(result: io::Result<T>) -> i32 {
    result.expect_err("an error").raw_os_error().expect("the system's number")
}

#[test]
fn a_file_is_written_and_read() {
    let client = client();
    client.create("/file").unwrap();
    client.write("/file", b"text", 2).unwrap();
    let mut bytes = [1; 9];
    assert_eq!(client.read("/file", &mut bytes, 0).unwrap(), 6);
    assert_eq!(&bytes, b"\0\0text\x01\x01\x01");
    assert_eq!(client.read("/file", &mut bytes, 6).unwrap(), 0);
    assert_eq!(client.read("/file", &mut bytes, u64::MAX).unwrap(), 0);
    client.truncate("/file", 3).unwrap();
    assert_eq!(client.stat("/file").unwrap(), Stat::File { bytes: 3 });
    client.truncate("/file", 5).unwrap();
    assert_eq!(client.read_all("/file").unwrap(), b"\0\0t\0\0");
    client.write("/file", "", 100).unwrap();
    assert_eq!(client.stat("/file").unwrap(), Stat::File { bytes: 5 });
}

#[test]
fn a_whole_file_is_written_and_read() {
    let client = client();
    client.write_all("/file", "longer").unwrap();
    client.write_all("/file", "text").unwrap();
    assert_eq!(client.read_all("/file").unwrap(), b"text");
    client.write_all(String::from("/file"), []).unwrap();
    assert_eq!(client.read_all("/file").unwrap(), b"");
    let whole = vec![7; limits::MOST_FILE_BYTES as usize];
    client.write_all("/file", &whole).unwrap();
    assert_eq!(client.read_all("/file").unwrap(), whole);
}

#[test]
fn directories_hold_names() {
    let client = client();
    client.mkdir("/box").unwrap();
    client.create("/box/b").unwrap();
    client.create(String::from("/box/a")).unwrap();
    assert_eq!(client.stat("/box").unwrap(), Stat::Directory { entries: 2 });
    assert_eq!(client.list("/box").unwrap(), ["a", "b"]);
    client.rename("/box/a", "/c").unwrap();
    client.unlink("/box/b").unwrap();
    client.rmdir("/box").unwrap();
    assert_eq!(client.list("/").unwrap(), ["c"]);
    client.fsync().unwrap();
}

#[test]
fn long_bytes_go_in_parts() {
    let client = client();
    let bytes: Vec<u8> = (0..100_000_u32).map(|at| (at % 251) as u8).collect();
    client.create("/file").unwrap();
    client.write("/file", &bytes, 1).unwrap();
    let mut found = vec![0; 100_001];
    assert_eq!(client.read("/file", &mut found, 1).unwrap(), 100_000);
    assert_eq!(found[..100_000], bytes);
    for size in [limits::CALL_BYTES - 1, limits::CALL_BYTES, limits::CALL_BYTES + 1] {
        client.write_all("/whole", &bytes[..size]).unwrap();
        assert_eq!(client.read_all("/whole").unwrap(), bytes[..size]);
    }
}

/// Of a write in parts, those before the one with the error stand.
#[test]
fn parts_before_an_error_stand() {
    let client = client();
    client.create("/file").unwrap();
    let bytes = vec![1; 2 * limits::CALL_BYTES];
    let offset = limits::MOST_FILE_BYTES - limits::CALL_BYTES as u64;
    assert_eq!(number(client.write("/file", &bytes, offset)), EFBIG);
    let first = (limits::CALL_BYTES - "/file".len()) as u64;
    assert_eq!(client.stat("/file").unwrap(), Stat::File { bytes: offset + first });
}

#[test]
fn long_directories_are_listed_in_parts() {
    let client = client();
    let mut names: Vec<String> = (0..300).map(|number| format!("{number}{}", "x".repeat(100))).collect();
    for name in &names {
        client.create(format!("/{name}")).unwrap();
    }
    names.sort();
    assert_eq!(client.list("/").unwrap(), names);
    let found: io::Result<Vec<String>> = client.read_dir("/").unwrap().collect();
    assert_eq!(found.unwrap(), names);
}

#[test]
fn a_directory_may_be_gone_between_two_pages() {
    let client = client();
    client.mkdir("/box").unwrap();
    for number in 0..100 {
        client.create(format!("/box/{number}{}", "x".repeat(200))).unwrap();
    }
    let names = client.list("/box").unwrap();
    let found = client.read_dir("/box").unwrap();
    client.rename("/box", "/other").unwrap();
    assert_eq!(found.collect::<io::Result<Vec<_>>>().unwrap(), names);
}

#[test]
fn errors_of_names_are_the_systems() {
    let client = client();
    client.create("/file").unwrap();
    for result in [client.create("/none/file"), client.mkdir("/none/box"), client.unlink("/none"), client.rmdir("/none")] {
        assert_eq!(number(result), ENOENT);
    }
    assert_eq!(number(client.rename("/none", "/file")), ENOENT);
    for result in [client.create("/file"), client.mkdir("/file"), client.create("/"), client.mkdir("/")] {
        assert_eq!(number(result), EEXIST);
    }
    for result in [client.create("/file/none"), client.rmdir("/file"), client.unlink("/file/none")] {
        assert_eq!(number(result), ENOTDIR);
    }
    assert_eq!(number(client.list("/file")), ENOTDIR);
    assert_eq!(number(client.list("/none")), ENOENT);
    assert_eq!(number(client.stat("/file/none")), ENOTDIR);
    assert_eq!(client.stat("/none").unwrap_err().kind(), ErrorKind::NotFound);
    assert_eq!(client.create("/file").unwrap_err().kind(), ErrorKind::AlreadyExists);
}

#[test]
fn errors_of_bytes_are_the_systems() {
    let client = client();
    client.create("/file").unwrap();
    client.mkdir("/box").unwrap();
    for (path, wanted) in [("/none", ENOENT), ("/file/none", ENOTDIR), ("/box", EISDIR), ("/", EISDIR)] {
        assert_eq!(number(client.read(path, &mut [0; 4], 0)), wanted);
        assert_eq!(number(client.read(path, &mut [], 0)), wanted);
        assert_eq!(number(client.read_all(path)), wanted);
        assert_eq!(number(client.write(path, "text", 0)), wanted);
        assert_eq!(number(client.truncate(path, 1)), wanted);
        assert_eq!(number(client.open_file(path)), wanted);
    }
    assert_eq!(number(client.unlink("/box")), EISDIR);
    assert_eq!(number(client.create_file("/box")), EISDIR);
    assert_eq!(number(client.create_file("/none/file")), ENOENT);
    assert_eq!(number(client.write_all("/", "text")), EISDIR);
    for offset in [limits::MOST_FILE_BYTES, u64::MAX] {
        assert_eq!(number(client.write("/file", "x", offset)), EFBIG);
        assert_eq!(number(client.truncate("/file", offset.saturating_add(1))), EFBIG);
    }
}

#[test]
fn errors_of_directories_are_the_systems() {
    let client = client();
    client.mkdir("/box").unwrap();
    client.mkdir("/full").unwrap();
    client.create("/full/file").unwrap();
    assert_eq!(number(client.rmdir("/full")), ENOTEMPTY);
    assert_eq!(number(client.rename("/box", "/full")), ENOTEMPTY);
    assert_eq!(number(client.rename("/box", "/full/file")), ENOTDIR);
    assert_eq!(number(client.rename("/full/file", "/box")), EISDIR);
    assert_eq!(number(client.rmdir("/")), EINVAL);
    for (from, to) in [("/", "/other"), ("/box", "/"), ("/box", "/box/below")] {
        assert_eq!(number(client.rename(from, to)), EINVAL);
    }
    client.rename("/full", "/box").unwrap();
    assert_eq!(client.list("/box").unwrap(), ["file"]);
}

#[test]
fn a_directory_is_full() {
    let client = client();
    client.create("/file").unwrap();
    client.mkdir("/box").unwrap();
    for number in 0..limits::MOST_ENTRIES {
        client.create(format!("/box/{number}")).unwrap();
    }
    assert_eq!(number(client.create("/box/more")), ENOSPC);
    assert_eq!(number(client.mkdir("/box/more")), ENOSPC);
    assert_eq!(number(client.create_file("/box/more")), ENOSPC);
    assert_eq!(number(client.rename("/file", "/box/more")), ENOSPC);
    client.unlink("/box/0").unwrap();
    client.rename("/file", "/box/more").unwrap();
}
