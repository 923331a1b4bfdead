// With the feature `port`: where the port's static library lies.
fn main() {
    println!("cargo:rerun-if-env-changed=PORT_LIB");
    if std::env::var_os("CARGO_FEATURE_PORT").is_some() {
        let folder = std::env::var("PORT_LIB").expect("PORT_LIB: folder of liblihvemur.a");
        println!("cargo:rerun-if-changed={folder}/liblihvemur.a");
        println!("cargo:rustc-link-search=native={folder}");
        println!("cargo:rustc-link-lib=static=lihvemur");
    }
}
