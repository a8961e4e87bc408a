//! Fetches a page ten times over `std::net`, from a server of its own, over connections that the pool keeps.

use curlpool::{Acquired, Pool, Target, Want};
use std::collections::HashMap;
use std::error::Error;
use std::io::{BufRead, BufReader, Read, Write};
use std::net::{TcpListener, TcpStream};

// A server that answers each request with two bytes, and leaves the connection open.
fn serve(listener: TcpListener) {
    for stream in listener.incoming().flatten() {
        std::thread::spawn(move || {
            let mut lines = BufReader::new(&stream).lines();
            while let Some(Ok(line)) = lines.next() {
                if line.is_empty() && (&stream).write_all(b"HTTP/1.1 200 OK\r\nContent-Length: 2\r\n\r\nok").is_err() {
                    return;
                }
            }
        });
    }
}

fn fetch(
    pool: &mut Pool,
    streams: &mut HashMap<u64, TcpStream>,
    url: &str,
    transfer: u64,
) -> Result<u32, Box<dyn Error>> {
    let target = Target::of(url)?;
    let site = pool.site(&target.host, target.port)?;
    let Acquired::Lease(mut lease) = pool.acquire(site, &Want::of(transfer))? else {
        return Err("it waits".into());
    };
    if lease.token().is_none() {
        streams.insert(transfer, TcpStream::connect((target.host.as_str(), target.port))?);
        pool.attach(&mut lease, transfer)?;
    }
    let token = lease.token().ok_or("no token")?;
    let stream = streams.get_mut(&token).ok_or("no stream")?;
    write!(stream, "GET {} HTTP/1.1\r\nHost: {}:{}\r\n\r\n", target.path, target.host, target.port)?;
    pool.begin(&lease, false, false)?;
    let mut buffer = [0; 4096];
    loop {
        let length = stream.read(&mut buffer)?;
        if length == 0 {
            pool.end(&lease)?;
            break;
        }
        if pool.feed(&lease, &buffer[..length])? {
            break;
        }
    }
    let status = pool.response(&lease)?.status;
    pool.give_back(lease)?;
    while let Some(token) = pool.closed() {
        streams.remove(&token);
    }
    Ok(status)
}

fn main() -> Result<(), Box<dyn Error>> {
    let listener = TcpListener::bind("127.0.0.1:0")?;
    let url = format!("http://{}/", listener.local_addr()?);
    std::thread::spawn(move || serve(listener));
    let (mut pool, mut streams) = (Pool::new(16, 6, 0, 16)?, HashMap::new());
    for transfer in 0..10 {
        assert_eq!(fetch(&mut pool, &mut streams, &url, transfer)?, 200);
    }
    let counts = pool.counts(0)?;
    println!("{} opened, {} reused", counts.opened, counts.reused);
    assert_eq!((counts.opened, counts.reused), (1, 9));
    assert_eq!(pool.end_all().len(), 1);
    Ok(())
}
