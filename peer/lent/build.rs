//! Links the static libraries, which NATAQVOJU_LIB_DIR says where to find. All but the first are left out where they
//! aren't there: the stand-in's libnataqvoju.a has every entry itself.

use std::path::Path;

/// The first one has to be there.
const LIBRARIES: [&str; 4] =
    ["nataqvoju", "nataqvoju_mill", "nataqvoju_plain", "nataqvoju_salvage"];

fn main() {
    println!("cargo:rerun-if-env-changed=NATAQVOJU_LIB_DIR");
    let Ok(folder) = std::env::var("NATAQVOJU_LIB_DIR") else {
        fail("NATAQVOJU_LIB_DIR isn't set; it names the folder that has libnataqvoju.a");
    };
    println!("cargo:rustc-link-search=native={folder}");
    for name in LIBRARIES {
        let library = Path::new(&folder).join(format!("lib{name}.a"));
        println!("cargo:rerun-if-changed={}", library.display());
        if library.is_file() {
            println!("cargo:rustc-link-lib=static={name}");
        } else if name == LIBRARIES[0] {
            fail(&format!("{} isn't there; build the library first", library.display()));
        }
    }
}

fn fail(message: &str) -> ! {
    eprintln!("{message}");
    std::process::exit(1);
}
