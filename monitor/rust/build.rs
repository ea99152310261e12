// Links the four libraries that `./nataqvoju library` makes, from the folder that NATAQVOJU_LIB_DIR names.
use std::env;
use std::path::Path;

fn main() {
    println!("cargo:rerun-if-env-changed=NATAQVOJU_LIB_DIR");
    let dir = env::var("NATAQVOJU_LIB_DIR").unwrap_or_else(|_| {
        panic!("set NATAQVOJU_LIB_DIR to the folder of libnataqvoju.a (target/staticlib after `./nataqvoju library`)")
    });
    println!("cargo:rustc-link-search=native={dir}");
    for library in ["nataqvoju", "nataqvoju_mill", "nataqvoju_salvage", "nataqvoju_plain"] {
        let archive = Path::new(&dir).join(format!("lib{library}.a"));
        if !archive.is_file() {
            panic!(
                "{} is not there: run `./nataqvoju library`, and give NATAQVOJU_LIB_DIR as an absolute path",
                archive.display()
            );
        }
        println!("cargo:rerun-if-changed={}", archive.display());
        println!("cargo:rustc-link-lib=static={library}");
    }
}
