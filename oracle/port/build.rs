//! Links the port's static library, where KCP_C names the folder that holds it, and tells which groups of its functions are there:
//! each function of a library that is still growing is declared only once the library has it.

use std::{env, fs};

/// A group of functions, and the one that stands for it.
const GROUPS: [(&str, &str); 10] = [
    ("kcp_c_new", "kcp_new"),
    ("kcp_c_setters", "kcp_set_mtu"),
    ("kcp_c_receive", "kcp_recv"),
    ("kcp_c_send", "kcp_send"),
    ("kcp_c_input", "kcp_input"),
    ("kcp_c_tests", "kcp_receive_test"),
    ("kcp_c_flush_ack", "kcp_flush_ack"),
    ("kcp_c_flush", "kcp_flush"),
    ("kcp_c_update", "kcp_update"),
    ("kcp_c_check", "kcp_check"),
];

/// The names in an archive's index of symbols, which is its first member, in the form of ar: how many, a place for each, the names.
fn names(archive: &[u8]) -> Option<Vec<&[u8]>> {
    let index = archive.strip_prefix(b"!<arch>\n/ ")?.get(58..)?;
    let count = index.get(..4)?.iter().fold(0, |n, byte| n << 8 | *byte as usize);
    Some(index.get(4 + 4 * count..)?.split(|byte| *byte == 0).take(count).collect())
}

fn main() {
    println!("cargo:rerun-if-env-changed=KCP_C");
    println!("cargo:rustc-check-cfg=cfg(kcp_c)");
    for (group, _) in GROUPS.iter() {
        println!("cargo:rustc-check-cfg=cfg({})", group);
    }
    if let Ok(folder) = env::var("KCP_C") {
        let path = format!("{}/libkcp_c.a", folder);
        println!("cargo:rerun-if-changed={}", path);
        println!("cargo:rustc-link-search=native={}", folder);
        println!("cargo:rustc-link-lib=static=kcp_c");
        println!("cargo:rustc-cfg=kcp_c");
        let archive = fs::read(&path).unwrap_or_default();
        let names = names(&archive).unwrap_or_else(|| panic!("{} has no index of symbols", path));
        for (group, _) in GROUPS.iter().filter(|g| names.contains(&g.1.as_bytes())) {
            println!("cargo:rustc-cfg={}", group);
        }
    }
}
