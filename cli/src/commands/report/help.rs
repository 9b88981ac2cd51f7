//! What `haspeljo report --help` says below the options: every line, key and number. The manual page is made of it, and
//! so a row is a word, two spaces or more, and what the word means.

use crate::numbers::{codes, refusals, verdicts};

const LINES: &str = "\
Lines:
  handshake START END version VERSION verdict VERDICT   the first item
  message START END code CODE                           each item after it
  message START END code 2 entries ENTRIES bogus BOGUS  one that is Peers
  end LENGTH                                            a clean ending
  stop LAYER NUMBER START                               any other ending

  START    the place of an item's first byte, counted from 0; after stop, of the item that cannot
           be read
  END      the place after an item's last byte
  VERSION  what the peer says its version is
  ENTRIES  how many entries a Peers message has
  BOGUS    how many of them have an address that no peer of the network can have, as on mainnet
           a private one or one of documentation space; no address is not bogus
  LENGTH   how many bytes the capture has: the last item ends with the last byte
  LAYER    where it stops: in the handshake, in the frame of a message, or in the body that a
           whole frame holds
";

const ADDRESSES: &str = "\
Lines of --addresses, indented below the handshake and, for each entry, below Peers:
  address ADDRESS bogus B verdict VERDICT version VERSION agent STRING name STRING

  ADDRESS  IP:PORT, [IP]:PORT, or none
  B        1 where the address is bogus, otherwise 0
  STRING   quoted, with escapes, since a peer may put anything into it; it may have spaces, so
           that what stands before agent is always the same number of words
";

const JSON: &str = "\
Keys of --json, in this order; one without a value is null:
  handshake  item, start, end, timestamp, version, agent, name, address, bogus, verdict,
             verdict_text, rest_api_url, features
  message    item, start, end, code, message, length; of ModifierRequest, ModifierResponse and
             Inv also modifier_type, count; of Peers count, bogus and, with --addresses, entries
  end        item, end
  stop       item, start, layer, number, text, cut
  unread     item, text: the capture cannot be read; standard error says so too

  file          comes first in every object: the capture's name, - for standard input; escaped
                where it is not UTF-8
  timestamp     in milliseconds since 1970, up to 2^64 - 1; jq rounds above 2^53
  features      each with id and body, in hex
  length        of the message's body, in bytes
  count         of ids, payloads or entries
  entries       each with the keys of a handshake from version on
  verdict_text  what the verdict's number means
  text          what the stop's number means, or why the capture cannot be read
  cut           true where the bytes just end within an item
";

const STATUS: &str = "\
Exit status, the highest of all captures:
  0       every session ends cleanly
  1       a session is cut: its bytes end within an item, as where the line broke off (number 1
          in the handshake, 5 or 8 in the frame)
  2       the command line is wrong
  3       a session stops for another reason
  4       a capture cannot be read, or the report cannot be written
  141     nobody reads the report any more: a closed pipe
";

const THREADS: &str = "\
Environment:
  RAYON_NUM_THREADS  how many captures are read at a time, as many as there are cores unless set";

const OTHER_NETWORK: &str = "
Verdict 2: the first Session feature does not begin with this network's magic.
";

const MANY_ITEMS: &str = "
Number 10: more than 400 ids or payloads, or of Peers more entries than the cap.
";

pub fn short() -> &'static str {
    "`haspeljo report --help` explains every line and number."
}

pub fn long() -> String {
    let tables = [
        ("VERDICT, on what a peer says of itself:", verdicts(), OTHER_NETWORK),
        ("CODE of a message:", codes(), ""),
        ("NUMBER, why something is refused; 12 to 16 stop no session:", refusals(), MANY_ITEMS),
    ];
    let tables = tables.map(|(title, rows, note)| format!("{title}\n{rows}{note}\n")).concat();
    format!("{LINES}\n{tables}{ADDRESSES}\n{JSON}\n{STATUS}\n{THREADS}")
}
