//! Links the peers: OpenSSL's libcrypto, nettle, libgcrypt, intel-ipsec-mb with the archive that bench/run builds from
//! c/ipsec_mb.c and, with the feature `go`, the one that it builds from go/peer.go.
use std::env;
use std::path::PathBuf;

fn main() {
    archive("c", "ipsec_mb_peer");
    if env::var_os("CARGO_FEATURE_GO").is_some() {
        archive("go", "peer");
    }
    for library in ["crypto", "nettle", "gcrypt", "IPSec_MB"] {
        println!("cargo:rustc-link-lib={library}");
    }
}

/// An archive that bench/run has built in a folder of target/.
fn archive(folder: &str, name: &str) {
    let folder = PathBuf::from(env::var_os("CARGO_MANIFEST_DIR").unwrap_or_default()).join("target").join(folder);
    println!("cargo:rerun-if-changed={}", folder.join(format!("lib{name}.a")).display());
    println!("cargo:rustc-link-search=native={}", folder.display());
    println!("cargo:rustc-link-lib=static={name}");
}
