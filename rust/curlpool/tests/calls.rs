use curlpool::{status, Acquired, Facts, Lease, Pool, Target, Waiter, Want};

fn lease(acquired: Acquired) -> Lease {
    match acquired {
        Acquired::Lease(lease) => lease,
        Acquired::Wait(_) => panic!("it waits"),
    }
}

fn waiter(acquired: Acquired) -> Waiter {
    match acquired {
        Acquired::Lease(_) => panic!("it has a connection"),
        Acquired::Wait(waiter) => waiter,
    }
}

#[test]
fn a_connection_is_reused() {
    let mut pool = Pool::new(2, 1, 0, 2).unwrap();
    let site = pool.site("a.test", 80).unwrap();
    let mut first = lease(pool.acquire(site, &Want::of(1)).unwrap());
    assert_eq!(first.token(), None);
    pool.attach(&mut first, 7).unwrap();
    let second = waiter(pool.acquire(site, &Want::of(2)).unwrap());
    let third = waiter(pool.acquire(site, &Want::of(3)).unwrap());
    assert_eq!(pool.granted(), None);
    pool.give_back_as(first, &Facts::default()).unwrap();
    assert_eq!(pool.granted(), Some(second.slot()));
    let second = lease(pool.claim(second).unwrap());
    assert_eq!(second.token(), Some(7));
    pool.withdraw(third);
    drop(second);
    assert_eq!(pool.closed(), Some(7));
    assert_eq!(pool.look(site).unwrap().leased, 0);
    assert_eq!(pool.counts(site).unwrap().reused, 1);
    assert_eq!(pool.take_log(site).unwrap().lines().count(), 7);
}

#[test]
fn a_response_is_read() {
    let mut pool = Pool::new(1, 1, 1, 1).unwrap();
    let mut lease = lease(pool.acquire(0, &Want::of(1)).unwrap());
    pool.attach(&mut lease, 9).unwrap();
    pool.begin(&lease, false, false).unwrap();
    assert!(!pool.feed(&lease, b"HTTP/1.1 200 OK\r\nContent-Length: 2\r\n\r\n").unwrap());
    assert!(pool.feed(&lease, b"ok").unwrap());
    assert!(pool.response(&lease).unwrap().persists);
    pool.give_back(lease).unwrap();
    assert_eq!(pool.end_all(), [9]);
}

#[test]
fn errors_are_told() {
    assert_eq!(Pool::new(1, 1, 1, 0).err().unwrap().status, status::BAD_LIMIT);
    let mut pool = Pool::new(1, 1, 1, 1).unwrap();
    let error = pool.acquire(1, &Want::of(1)).unwrap_err();
    assert_eq!(error.to_string(), "no such site");
    assert_eq!(Target::of("ftp://a/").unwrap_err().status, status::NOT_HTTP);
    let target = Target { host: "a.test".into(), port: 81, path: "/b?c".into() };
    assert_eq!(Target::of("http://A.test:81/b?c#d").unwrap(), target);
    assert_eq!(curlpool::version(), "0.3.0");
}

#[test]
fn a_pool_goes_to_another_thread() {
    let mut pool = Pool::new(1, 1, 1, 1).unwrap();
    let mut lease = lease(pool.acquire(0, &Want::of(1)).unwrap());
    let told = std::thread::spawn(move || {
        pool.attach(&mut lease, 5).unwrap();
        drop(lease);
        pool.end_all()
    });
    assert_eq!(told.join().unwrap(), [5]);
}
