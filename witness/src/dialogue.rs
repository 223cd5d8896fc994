//! A dialogue with a store on disk: what each command prints, byte for byte. `@` stands for the
//! folder of the dialogue, `|` for CR.

use crate::commands::run;
use std::fs;
use std::path::Path;

#[rustfmt::skip]
const FILES: &[(&str, &str)] = &[
    ("table.txt", "3055501,,D001,02012024\n30500,30599,D001,02012024\n"),
    ("bad.txt", "3055501,,D001,02012024"),
    ("D002/1D240305.txt", "3055501,,04032024,D002,D001,P|Zeilenanzahl:2,|"),
    ("D001/1D240306.txt", "3055501,,04032024,D002,D001,L|30500,30599,05032024,,D001,Z|7,,05032024,D002,D001,L|Zeilenanzahl:4,|"),
    ("D001/1K240306.txt", "2500U:3055501,,04032024,D002,D001,P,K:,,,,,|Zeilenanzahl:2,|"),
    ("cut/1K240306.txt", "2500U:3055501,,04032024,D002,D001,P,K:,,,,,|Zeilenanzahl:2,"),
    ("D003/1D240306.txt", "30500,30599,05032024,,D003,Z|Zeilenanzahl:2,|"),
    ("1Q240306.txt", "D001,,|"),
    ("k1/1D240311.txt", "3055501,,04032024,D002,D001,P|305\u{7f}5501,,04032024,D002,D001,P|Zeilenanzahl:3,|"),
    ("k1/1D240312.txt", "3055501,,04032024,D002,D001|Zeilenanzahl:2,|"),
    ("k1/1D240313.txt", "3055501,,30022024,D002,D001,P|Zeilenanzahl:2,|"),
    ("k1/1K240314.txt", "2500U:3055501,,04032024,D002,D00A,P,K:,,,,,|Zeilenanzahl:2,|"),
    ("k1/1K240315.txt", "2500U:3055501,,04032024,,D001,P,K:,,,,,|Zeilenanzahl:2,|"),
    ("k1/1K240316.txt", ""),
    ("k1/1D240317.txt", "Zeilenanzahl:1,|\n"),
    ("k1/1R240318.txt", "3055501,,04032024,D002,D001,P"),
    ("k1/1Q240319.txt", "D456,,|D456,,|"),
    ("k1/1Q240320.txt", "D456,|"),
    ("list", "D002\t@/D002/1D240305.txt\n\nD001\t@/D001/1D240306.txt\n"),
    ("table-k3.txt", "3055501,,D001,02012017\n3055502,,D001,02012017\n"),
    ("D002/1D170307.txt", "3055501,,06032017,D002,D001,P|Zeilenanzahl:2,|"),
    ("D001/1D170307.txt", "3055501,,06032017,D002,D001,L|Zeilenanzahl:2,|"),
    ("D002/1D171025.txt", "3055501,,24102017,D001,D002,Z|Zeilenanzahl:2,|"),
    ("D001/1D171101.txt", "3055501,,24102017,D001,D002,P|Zeilenanzahl:2,|"),
    ("D001/1D171102.txt", "3055501,,24102017,D001,D002,P|Zeilenanzahl:2,|"),
    ("list-k3", "D002\t@/D002/1D170307.txt\nD001\t@/D001/1D170307.txt\nD002\t@/D002/1D171025.txt\nD001\t@/D001/1D171101.txt\n"),
];

#[rustfmt::skip]
/// Command, output, status. 2 stands for words on standard error and no further output.
const DIALOGUE: &[(&str, &str, u8)] = &[
    ("start @/store @/bad.txt", "refused\t6\n", 1),
    ("show @/store", "", 2),
    ("start @/store @/table.txt", "started\t2\n", 0),
    ("start @/store @/table.txt", "", 2),
    ("files @/store", "", 0),
    ("figure @/store", "differ\t0\tof\t2\n", 0),
    ("show @/store", "3055501\tD001\t-\t-\n30500-30599\tD001\t-\t-\n", 0),
    ("file @/store --list @/list", "@/D002/1D240305.txt\tfiled\t1\n@/D001/1D240306.txt\tfiled\t4\n", 0),
    ("why @/store 3055501 30500-30599 7", "3055501\tpair\t3055501,,04032024,D002,D001,P\t2024-03-05\t3055501,,04032024,D002,D001,L\t2024-03-06\n30500-30599\tnone\n7\trefused\t12\n", 1),
    ("file @/store D001 @/cut/1K240306.txt @/D001/1K240306.txt @/D001/1K240306.txt", "@/cut/1K240306.txt\trefused\t4\t1\t0\tclosing\n@/D001/1K240306.txt\tfiled\t3\n@/D001/1K240306.txt\trefused\t3\n", 1),
    ("file @/store D00A @/x", "@/x\trefused\t1\n", 1),
    ("file @/store D004 @/k1/1D240311.txt @/k1/1D240312.txt @/k1/1D240313.txt", "@/k1/1D240311.txt\trefused\t4\t1\t1\tcharacter\n@/k1/1D240312.txt\trefused\t4\t0\t11\tlength\n@/k1/1D240313.txt\trefused\t4\t0\t5\tdate\n", 1),
    ("file @/store D004 @/k1/1K240314.txt @/k1/1K240315.txt @/k1/1K240316.txt", "@/k1/1K240314.txt\trefused\t4\t0\t11\tcode\n@/k1/1K240315.txt\trefused\t4\t0\t13\tvalue\n@/k1/1K240316.txt\trefused\t4\t0\t0\tclosing\n", 1),
    ("file @/store D004 @/k1/1D240317.txt", "@/k1/1D240317.txt\trefused\t4\t1\t0\tafter\n", 1),
    ("file @/store D003 @/1Q240306.txt @/D003/1D240306.txt @/1D240307.txt @/D003/1D240306.txt", "@/1Q240306.txt\trefused\t2\n@/D003/1D240306.txt\tfiled\t2\n", 2),
    ("files @/store", "1\tdefault\tD002\t2024-03-05\t1\n2\tdefault\tD001\t2024-03-06\t3\n3\tcorrection\tD001\t2024-03-06\t1\n4\tdefault\tD003\t2024-03-06\t1\n", 0),
    ("show @/store", "3055501\tD001\t-\t0:L:2024-03-04:D001>D002:2024-03-06\n30500-30599\tD001\t-\t0:Z:2024-03-05:D003>D001:2024-03-06\n", 0),
    ("show @/store --before 3 3055501", "3055501\tD002\t2024-03-04\t-\n", 0),
    ("show @/store 30500 3055501", "30500\trefused\t12\n3055501\tD001\t-\t0:L:2024-03-04:D001>D002:2024-03-06\n", 1),
    ("show @/store --before", "", 2),
    ("why @/store 3055501", "3055501\tnone\n", 0),
    ("why @/store", "", 2),
    ("verdicts @/store", "R\t0\tD002\t2024-03-05\t0\t10\t3055501,,04032024,D002,D001,P\nR\t1\tD001\t2024-03-06\t0\t10\t3055501,,04032024,D002,D001,L\nR\t2\tD001\t2024-03-06\t1\t14\t30500,30599,05032024,,D001,Z\nR\t3\tD001\t2024-03-06\t2\t12\t7,,05032024,D002,D001,L\nR\t4\tD003\t2024-03-06\t0\t10\t30500,30599,05032024,,D003,Z\nC\t0\tD001\t2024-03-06\t0\t30\t2500U:3055501,,04032024,D002,D001,P,K:,,,,,\n", 0),
    ("figure @/store", "differ\t0\tof\t2\n", 0),
    ("rework @/store", "changed\t0\tof\t2\n", 0),
    ("figure @/store", "differ\t0\tof\t2\n", 0),
    ("rework @/store 3055501", "", 2),
    ("rework @/none", "", 2),
    ("rework", "", 2),
    ("read @/D002/1D240305.txt", "record\t0\t3055501,,04032024,D002,D001,P\n", 0),
    ("read @/1Q240306.txt", "record\t0\tD001,,\n", 0),
    ("read @/cut/1K240306.txt", "refused\t4\t1\t0\tclosing\n", 1),
    ("read @/k1/1D240311.txt", "refused\t4\t1\t1\tcharacter\n", 1),
    ("read @/k1/1D240312.txt", "refused\t4\t0\t11\tlength\n", 1),
    ("read @/k1/1D240313.txt", "refused\t4\t0\t5\tdate\n", 1),
    ("read @/k1/1K240314.txt", "refused\t4\t0\t11\tcode\n", 1),
    ("read @/k1/1K240315.txt", "refused\t4\t0\t13\tvalue\n", 1),
    ("read @/k1/1K240316.txt", "refused\t4\t0\t0\tclosing\n", 1),
    ("read @/k1/1D240317.txt", "refused\t4\t1\t0\tafter\n", 1),
    ("read @/k1/1R240318.txt", "refused\t4\t0\t12\tlength\n", 1),
    ("read @/k1/1Q240319.txt", "refused\t4\t1\t0\tafter\n", 1),
    ("read @/k1/1Q240320.txt", "refused\t4\t0\t4\tlength\n", 1),
    ("read @/table.txt", "refused\t2\n", 1),
    ("read @/1D240307.txt", "", 2),
    ("nonsense", "", 2),
];

/// The stored entries with a line changed behind the store's back.
const CHANGED: &str = "D001\t-\t0:L:2024-03-04:D001>D002:2024-03-06\nD009\t-\t-\n";

#[rustfmt::skip]
/// What is said of it then: `rework` lists the line once, and keeps what is worked out.
const REWORKED: &[(&str, &str, u8)] = &[
    ("figure @/store", "differ\t1\tof\t2\n30500-30599\tD009\t-\t-\tD001\t-\t0:Z:2024-03-05:D003>D001:2024-03-06\n", 1),
    ("rework @/store", "30500-30599\tD009\t-\t-\tD001\t-\t0:Z:2024-03-05:D003>D001:2024-03-06\nchanged\t1\tof\t2\n", 0),
    ("rework @/store", "changed\t0\tof\t2\n", 0),
    ("figure @/store", "differ\t0\tof\t2\n", 0),
];

#[rustfmt::skip]
/// Request K3: a store whose P of 2017-11-01 came before the fifth working day.
const K3: &[(&str, &str, u8)] = &[
    ("start @/k3 @/table-k3.txt", "started\t2\n", 0),
    ("file @/k3 --list @/list-k3", "@/D002/1D170307.txt\tfiled\t1\n@/D001/1D170307.txt\tfiled\t2\n@/D002/1D171025.txt\tfiled\t3\n@/D001/1D171101.txt\tfiled\t4\n", 0),
    ("show @/k3 3055501", "3055501\tD002\t2017-03-06\t0:Z:2017-10-24:D002>D001:2017-10-25\n", 0),
];

/// Its entries and its mark as they were with the list of 468 days: the P was confirmed.
const OLD_ENTRIES: &str = "D001\t2017-10-24\t-\nD001\t-\t-\n";
const OLD_MARK: &str = "468\n";

/// What an old store says that it wants `rework` for, and does not answer.
const WANTS_REWORK: &[&str] = &[
    "files @/k3",
    "show @/k3",
    "show @/k3 3055501",
    "show @/k3 --before 4",
    "why @/k3 3055501",
    "verdicts @/k3",
    "figure @/k3",
    "file @/k3 D001 @/D001/1D171102.txt",
    "file @/k3 --list @/list-k3",
];

#[rustfmt::skip]
/// After `rework` it answers, and nothing was filed meanwhile.
const K3_REWORKED: &[(&str, &str, u8)] = &[
    ("rework @/k3", "3055501\tD001\t2017-10-24\t-\tD002\t2017-03-06\t0:Z:2017-10-24:D002>D001:2017-10-25\nchanged\t1\tof\t2\n", 0),
    ("rework @/k3", "changed\t0\tof\t2\n", 0),
    ("figure @/k3", "differ\t0\tof\t2\n", 0),
    ("files @/k3", "1\tdefault\tD002\t2017-03-07\t1\n2\tdefault\tD001\t2017-03-07\t1\n3\tdefault\tD002\t2017-10-25\t1\n4\tdefault\tD001\t2017-11-01\t1\n", 0),
    ("why @/k3 3055501", "3055501\tpair\t3055501,,06032017,D002,D001,P\t2017-03-07\t3055501,,06032017,D002,D001,L\t2017-03-07\n", 0),
    ("verdicts @/k3", "R\t0\tD002\t2017-03-07\t0\t10\t3055501,,06032017,D002,D001,P\nR\t1\tD001\t2017-03-07\t0\t11\t3055501,,06032017,D002,D001,L\nR\t2\tD002\t2017-10-25\t0\t10\t3055501,,24102017,D001,D002,Z\nR\t3\tD001\t2017-11-01\t0\t21\t3055501,,24102017,D001,D002,P\n", 0),
    ("file @/k3 D001 @/D001/1D171102.txt", "@/D001/1D171102.txt\tfiled\t5\n", 0),
    ("show @/k3", "3055501\tD001\t2017-10-24\t-\n3055502\tD001\t-\t-\n", 0),
];

#[rustfmt::skip]
/// A store without a mark, whose entries the list of today leads to: none changes.
const UNMARKED: &[(&str, &str, u8)] = &[
    ("rework @/k3", "changed\t0\tof\t2\n", 0),
    ("show @/k3", "3055501\tD001\t2017-10-24\t-\n3055502\tD001\t-\t-\n", 0),
];

/// Runs the dialogue; `check` is told of each command whether it went as written above.
pub fn dialogue(check: &mut dyn FnMut(&str, bool)) {
    let folder = std::env::temp_dir().join(format!("dialogue-{}", std::process::id()));
    let here = folder.display().to_string();
    for (path, text) in FILES {
        write(&folder.join(path), &text.replace('@', &here).replace('|', "\r"));
    }
    compare_all(DIALOGUE, &here, check);
    write(&folder.join("store/entries"), CHANGED);
    compare_all(REWORKED, &here, check);
    compare_all(K3, &here, check);
    write(&folder.join("k3/entries"), OLD_ENTRIES);
    write(&folder.join("k3/holidays"), OLD_MARK);
    wants_rework(&here, check);
    compare_all(K3_REWORKED, &here, check);
    fs::remove_file(folder.join("k3/holidays")).expect("a mark in the store");
    wants_rework(&here, check);
    compare_all(UNMARKED, &here, check);
    let _ = fs::remove_dir_all(folder);
}

fn write(path: &Path, text: &str) {
    let folder = path.parent().expect("a path in the dialogue's folder");
    fs::create_dir_all(folder).expect("room for the dialogue's folder");
    fs::write(path, text).expect("room for the dialogue's files");
}

/// Runs a command line; what it printed has `@` for the folder.
fn told(command: &str, here: &str) -> (Result<u8, String>, String) {
    let words: Vec<String> = command.split(' ').map(|word| word.replace('@', here)).collect();
    let words: Vec<&[u8]> = words.iter().map(|word| word.as_bytes()).collect();
    let mut out = Vec::new();
    let result = run(&words, &mut out);
    (result, String::from_utf8_lossy(&out).replace(here, "@"))
}

fn compare_all(lines: &[(&str, &str, u8)], here: &str, check: &mut dyn FnMut(&str, bool)) {
    for (command, output, status) in lines {
        let (result, out) = told(command, here);
        let is = result.unwrap_or(2);
        let what = format!("{}: status {}, output\n{}", command, is, out);
        check(&what, out == *output && is == *status);
    }
}

/// Status 2 with words that say so, and nothing on standard output.
fn wants_rework(here: &str, check: &mut dyn FnMut(&str, bool)) {
    for command in WANTS_REWORK {
        let (result, out) = told(command, here);
        let said = matches!(&result, Err(words) if words.ends_with("it wants `rework` first"));
        check(
            &format!("{}: wants `rework`, {:?}\n{}", command, result, out),
            said && out.is_empty(),
        );
    }
}
