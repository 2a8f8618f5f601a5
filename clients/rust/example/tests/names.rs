use rumstrait::{Transport, Zone};
use std::net::{Ipv4Addr, UdpSocket};

#[test]
fn a_name_has_its_addresses() {
    let text = "$TTL 60\n@ SOA ns h 1 1 1 1 30\nwww CNAME a\na A 10.0.0.1\na A 10.0.0.2\n";
    let socket = UdpSocket::bind("127.0.0.1:0").unwrap();
    let server = socket.local_addr().unwrap();
    std::thread::spawn(move || {
        let mut zone = Zone::from_text(text, "t.").unwrap();
        let mut request = [0; 512];
        while let Ok((len, client)) = socket.recv_from(&mut request) {
            let reply = zone.serve(&request[..len], Transport::Datagram { limit: 512 });
            socket.send_to(&reply.unwrap().unwrap(), client).unwrap();
        }
    });
    let found = resolves::addresses("www.t.", server).unwrap();
    assert_eq!(found, [[10, 0, 0, 1], [10, 0, 0, 2]].map(Ipv4Addr::from));
    assert!(resolves::addresses("none.t.", server).is_err());
}
