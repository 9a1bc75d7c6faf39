//! Files as std has them.

#[allow(dead_code)]
#[path = "../src/errno.rs"]
mod errno;

use assise::{limits, Client, Cluster, Refusal, Stat};
use std::io::{self, BufRead, BufReader, BufWriter, ErrorKind, Read, Seek, SeekFrom, Write};

fn client() -> Client {
    Cluster::new(2, 64, 64).and_then(|cluster| cluster.open(1)).expect("a client")
}

#[test]
fn a_file_has_a_place() {
    let client = client();
    let mut file = client.create_file("/file").unwrap();
    file.write_all(b"text and more").unwrap();
    assert_eq!(file.stream_position().unwrap(), 13);
    assert_eq!(file.seek(SeekFrom::Start(5)).unwrap(), 5);
    let mut word = [0; 3];
    file.read_exact(&mut word).unwrap();
    assert_eq!((&word, file.stream_position().unwrap()), (b"and", 8));
    assert_eq!(file.seek(SeekFrom::Current(-4)).unwrap(), 4);
    assert_eq!(file.seek(SeekFrom::End(-4)).unwrap(), 9);
    let mut text = String::from("no ");
    assert_eq!(file.read_to_string(&mut text).unwrap(), 4);
    assert_eq!((text.as_str(), file.stream_position().unwrap()), ("no more", 13));
    assert_eq!(file.read(&mut word).unwrap(), 0);
    assert_eq!(file.path(), "/file");
}

#[test]
fn a_place_may_lie_behind_the_end() {
    let client = client();
    let mut file = client.create_file("/file").unwrap();
    assert_eq!(file.seek(SeekFrom::End(3)).unwrap(), 3);
    assert_eq!(file.read(&mut [0; 2]).unwrap(), 0);
    file.write_all(b"x").unwrap();
    assert_eq!(client.read_all("/file").unwrap(), b"\0\0\0x");
    file.set_len(1).unwrap();
    assert_eq!((file.metadata().unwrap(), file.stream_position().unwrap()), (Stat::File { bytes: 1 }, 4));
}

#[test]
fn a_place_is_a_number() {
    let client = client();
    let mut file = client.create_file("/file").unwrap();
    file.write_all(b"text").unwrap();
    for to in [SeekFrom::Current(-5), SeekFrom::End(-5), SeekFrom::Current(i64::MIN)] {
        assert_eq!(file.seek(to).unwrap_err().kind(), ErrorKind::InvalidInput);
        assert_eq!(file.stream_position().unwrap(), 4);
    }
    assert_eq!(file.seek(SeekFrom::Start(u64::MAX)).unwrap(), u64::MAX);
    assert_eq!(file.seek(SeekFrom::Current(1)).unwrap_err().kind(), ErrorKind::InvalidInput);
    assert_eq!(file.read(&mut [0; 2]).unwrap(), 0);
    assert_eq!(file.read_to_end(&mut Vec::new()).unwrap(), 0);
    assert_eq!(file.write(b"x").unwrap_err().raw_os_error(), Some(errno::EFBIG));
    assert_eq!(file.stream_position().unwrap(), u64::MAX);
}

#[test]
fn one_call_reads_and_writes_at_most_a_request() {
    let client = client();
    let bytes: Vec<u8> = (0..50_000_u32).map(|at| (at % 241) as u8).collect();
    let mut file = client.create_file("/file").unwrap();
    assert_eq!(file.write(&bytes).unwrap(), limits::CALL_BYTES - "/file".len());
    file.write_all(&bytes[limits::CALL_BYTES - "/file".len()..]).unwrap();
    file.rewind().unwrap();
    let mut found = vec![0; bytes.len()];
    assert_eq!(file.read(&mut found).unwrap(), limits::CALL_BYTES);
    let mut rest = found[..limits::CALL_BYTES].to_vec();
    assert_eq!(file.read_to_end(&mut rest).unwrap(), bytes.len() - limits::CALL_BYTES);
    assert_eq!(rest, bytes);
    assert_eq!(file.write(&[]).unwrap(), 0);
}

#[test]
fn a_file_that_is_full_takes_no_more() {
    let client = client();
    let mut file = client.create_file("/file").unwrap();
    let error = io::copy(&mut io::repeat(1), &mut file).unwrap_err();
    assert_eq!(error.raw_os_error(), Some(errno::EFBIG));
    let Stat::File { bytes } = file.metadata().unwrap() else { panic!("a directory") };
    assert_eq!(file.stream_position().unwrap(), bytes);
    assert!(bytes > limits::MOST_FILE_BYTES - limits::CALL_BYTES as u64);
}

#[test]
fn std_reads_and_writes_it() {
    let client = client();
    let mut out = BufWriter::new(client.create_file("/lines").unwrap());
    for number in 0..3_000 {
        writeln!(out, "line {number}").unwrap();
    }
    out.into_inner().unwrap().sync_all().unwrap();
    let lines = BufReader::new(client.open_file("/lines").unwrap()).lines();
    for (number, line) in lines.enumerate() {
        assert_eq!(line.unwrap(), format!("line {number}"));
    }
    let mut copy = client.create_file("/copy").unwrap();
    io::copy(&mut client.open_file("/lines").unwrap(), &mut copy).unwrap();
    assert_eq!(client.read_all("/copy").unwrap(), client.read_all("/lines").unwrap());
}

#[test]
fn an_open_file_is_its_path() {
    let client = client();
    let mut file = client.create_file("/file").unwrap();
    file.write_all(b"text").unwrap();
    client.rename("/file", "/other").unwrap();
    assert_eq!(file.write(b"more").unwrap_err().kind(), ErrorKind::NotFound);
    assert_eq!(file.metadata().unwrap_err().kind(), ErrorKind::NotFound);
    client.mkdir("/file").unwrap();
    assert_eq!(file.seek(SeekFrom::End(0)).unwrap_err().raw_os_error(), Some(errno::EISDIR));
    client.rmdir("/file").unwrap();
    client.write_all("/file", "another").unwrap();
    let mut rest = String::new();
    file.read_to_string(&mut rest).unwrap();
    assert_eq!(rest, "her");
    assert_eq!(client.create_file("/other").unwrap().metadata().unwrap(), Stat::File { bytes: 0 });
}

#[test]
fn a_file_outlives_its_client_s_handle_and_not_its_node() {
    let cluster = Cluster::new(2, 64, 64).unwrap();
    let mut file = cluster.open(1).unwrap().create_file("/file").unwrap();
    file.write_all(b"kept").unwrap();
    file.flush().unwrap();
    file.sync_all().unwrap();
    file.write_all(b"lost").unwrap();
    cluster.fail(1).unwrap();
    for error in
        [file.sync_all().unwrap_err(), file.write(b"x").unwrap_err(), file.read(&mut [0]).unwrap_err(), file.set_len(0).unwrap_err()]
    {
        assert_eq!(Refusal::of(&error), Some(Refusal::NodeDown));
    }
    assert_eq!(file.stream_position().unwrap(), 8);
    assert_eq!(cluster.open(2).unwrap().read_all("/file").unwrap(), b"kept");
}
