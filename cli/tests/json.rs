//! `--json`: its keys and their order are pinned.

mod common;

use common::*;
use haspeljo::{Network, Payload, Write};
use serde_json::Value;
use std::ffi::OsStr;
use std::os::unix::ffi::OsStrExt;

fn objects(lines: &str) -> Vec<Value> {
    lines.lines().map(|line| serde_json::from_str(line).expect("JSON")).collect()
}

#[test]
fn the_example() {
    let lines = concat!(
        r#"{"file":"-","item":"handshake","start":0,"end":11,"timestamp":300,"version":"6.0.1","agent":"ab","#,
        r#""name":"","address":null,"bogus":false,"verdict":0,"verdict_text":"valid","#,
        r#""rest_api_url":null,"features":[]}"#,
        "\n",
        r#"{"file":"-","item":"message","start":11,"end":20,"code":1,"message":"GetPeers","length":0}"#,
        "\n",
        r#"{"file":"-","item":"end","end":20}"#,
        "\n",
    );
    run_on(&["report", "--json"], EXAMPLE).assert(0, lines, "");
}

#[test]
fn a_stop() {
    let line = concat!(
        r#"{"file":"-","item":"stop","start":0,"layer":"handshake","number":1,"#,
        r#""text":"bytes of a field are missing","cut":true}"#,
        "\n",
    );
    run_on(&["report", "--json"], &EXAMPLE[..10]).assert(1, line, "");
    let mut wrong = EXAMPLE.to_vec();
    wrong[11] = 9;
    let ended = run_on(&["report", "--json"], &wrong);
    let stop = objects(&ended.stdout).pop().unwrap();
    assert_eq!(
        (&stop["number"], &stop["cut"], &stop["start"]),
        (&6.into(), &false.into(), &11.into())
    );
}

#[test]
fn entries() {
    let session = peers_session(Network::Mainnet);
    let all = objects(&run_on(&["report", "--json", "--addresses"], &session).stdout);
    assert_eq!(all[0]["rest_api_url"], "http://host");
    assert_eq!(all[0]["features"][0]["body"], "00010001");
    assert_eq!(all[0]["features"][0]["id"], 16);
    let peers = &all[1];
    assert_eq!((&peers["message"], &peers["count"]), (&"Peers".into(), &4.into()));
    assert_eq!(peers["bogus"], 1);
    let entries = peers["entries"].as_array().unwrap();
    let addresses: Vec<&Value> = entries.iter().map(|entry| &entry["address"]).collect();
    let expected =
        ["213.239.193.208:9030", "10.0.0.1:9030", "[2001:41d0::1]:9030"].map(Value::from);
    assert_eq!(addresses[..3], expected.iter().collect::<Vec<_>>());
    assert_eq!(addresses[3], &Value::Null);
    assert_eq!((&entries[1]["bogus"], &entries[3]["verdict"]), (&true.into(), &1.into()));
    let without = objects(&run_on(&["report", "--json"], &session).stdout);
    assert_eq!(without[1].get("entries"), None);
}

/// Whole lines, which have the keys in their order.
#[test]
fn keys() {
    let ended = run_on(&["report", "--json", "--addresses"], &peers_session(Network::Mainnet));
    let mut lines = ended.stdout.lines();
    let handshake = concat!(
        r#"{"file":"-","item":"handshake","start":0,"end":51,"timestamp":1700000000000,"version":"6.0.1","#,
        r#""agent":"ergoref","name":"node","address":"213.239.193.208:9030","bogus":false,"#,
        r#""verdict":0,"verdict_text":"valid","rest_api_url":"http://host","#,
        r#""features":[{"id":16,"body":"00010001"},{"id":4,"body":"0b687474703a2f2f686f7374"}]}"#,
    );
    assert_eq!(lines.next(), Some(handshake));
    let peers = concat!(
        r#"{"file":"-","item":"message","start":51,"end":172,"code":2,"message":"Peers","length":108,"#,
        r#""count":4,"bogus":1,"entries":[{"version":"6.0.1","agent":"ergoref","name":"public","#,
        r#""address":"213.239.193.208:9030","bogus":false,"verdict":0,"verdict_text":"valid","#,
        r#""rest_api_url":null,"features":[]},"#,
    );
    let line = lines.next().unwrap();
    assert_eq!(&line[..peers.len()], peers);
}

/// A message of ids or payloads has their type and how many there are.
#[test]
fn modifiers() {
    let (network, modifier_type) = (Network::Mainnet, 101);
    let payload = Payload::new(&[3; 32], b"bytes");
    let writes = [
        Write::ModifierRequest { network, modifier_type, ids: &[[1; 32], [2; 32]] },
        Write::ModifierResponse { network, modifier_type, payloads: &[payload] },
        Write::Inv { network, modifier_type, ids: &[] },
        Write::Unknown { network, code: 9, body: b"body" },
    ];
    let mut session = EXAMPLE[..11].to_vec();
    writes.iter().for_each(|write| write.append(&mut session).unwrap());
    let ended = run_on(&["report", "--json"], &session);
    let lines: Vec<&str> = ended.stdout.lines().collect();
    let expected = [
        r#""start":11,"end":90,"code":22,"message":"ModifierRequest","length":66,"modifier_type":101,"count":2}"#,
        r#""start":90,"end":143,"code":33,"message":"ModifierResponse","length":40,"modifier_type":101,"count":1}"#,
        r#""start":143,"end":158,"code":55,"message":"Inv","length":2,"modifier_type":101,"count":0}"#,
        r#""start":158,"end":175,"code":9,"message":"Unknown","length":4}"#,
    ];
    assert_eq!(
        lines[1..5],
        expected.map(|line| format!(r#"{{"file":"-","item":"message",{line}"#))
    );
    assert_eq!(lines[5..], [r#"{"file":"-","item":"end","end":175}"#]);
}

#[test]
fn every_object_has_the_name() {
    let folder = folder("json");
    let clean = file(&folder, " outer spaces ", EXAMPLE);
    let cut = file(&folder, "cut ", &EXAMPLE[..12]);
    for names in [vec![&clean[..]], vec![&cut], vec![&clean, &cut, &clean]] {
        let arguments = [&["report", "--json"], &names[..]].concat();
        let files: Vec<Value> =
            objects(&run(&arguments).stdout).iter().map(|object| object["file"].clone()).collect();
        let lines = |name: &str| vec![Value::from(name); if name == cut { 2 } else { 3 }];
        assert_eq!(files, names.into_iter().flat_map(lines).collect::<Vec<_>>());
    }
}

#[test]
fn a_capture_that_cannot_be_read() {
    let folder = folder("json unread");
    let clean = file(&folder, "clean", EXAMPLE);
    let missing = folder.join("missing").to_str().unwrap().to_string();
    let ended = run(&["report", "--json", &missing, &clean]);
    assert_eq!(ended.status, Some(4));
    assert_eq!(ended.stderr, format!("haspeljo: {missing}: No such file or directory\n"));
    let object = r#""item":"unread","text":"No such file or directory"}"#;
    let line = format!(r#"{{"file":"{missing}",{object}"#);
    assert_eq!(ended.stdout.lines().next(), Some(&line[..]));
    assert_eq!(ended.stdout.lines().count(), 4);
}

/// Two names that are not UTF-8 differ here too.
#[test]
fn names_of_other_bytes() {
    for (name, shown) in [(b"no \xff\"", r#"no \xFF\""#), (b"no \xfe\"", r#"no \xFE\""#)] {
        let output = haspeljo(&["report", "--json"]).arg(OsStr::from_bytes(name)).output().unwrap();
        assert_eq!(objects(&Ended::of(output).stdout)[0]["file"], shown);
    }
}

/// Its length does not fit into two bytes.
#[test]
fn a_long_body() {
    let mut session = EXAMPLE[..11].to_vec();
    let body = &vec![7; 65_536];
    Write::SyncInfo { network: Network::Mainnet, body }.append(&mut session).unwrap();
    let all = objects(&run_on(&["report", "--json"], &session).stdout);
    assert_eq!((&all[1]["length"], &all[1]["end"]), (&65_536.into(), &session.len().into()));
}

/// On testnet a private address is not bogus, and the magic of the Session feature is testnet's.
#[test]
fn entries_of_testnet() {
    let session = session_of_both_networks(Network::Testnet);
    let arguments = ["report", "--json", "--addresses", "--network", "testnet"];
    let all = objects(&run_on(&arguments, &session).stdout);
    let verdicts = |entry: &Value| (entry["bogus"].clone(), entry["verdict"].clone());
    assert_eq!(verdicts(&all[0]), (false.into(), 0.into()));
    assert_eq!(all[1]["bogus"], 0);
    let entries = all[1]["entries"].as_array().unwrap();
    let expected = [(false, 2), (false, 0), (false, 0)].map(|(b, v)| (b.into(), v.into()));
    assert_eq!(entries.iter().map(verdicts).collect::<Vec<_>>(), expected);
}
