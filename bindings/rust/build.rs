//! Links libgraphql_ast_c.a, and liblibc_c.a of the toolchain that built it: `GRAPHQL_AST_LIB` names the folder of the first, and `GRAPHQL_AST_LIBC` that of
//! the second.

fn main() {
    for (variable, library) in [("GRAPHQL_AST_LIB", "graphql_ast_c"), ("GRAPHQL_AST_LIBC", "libc_c")] {
        println!("cargo:rerun-if-env-changed={variable}");
        let folder = std::env::var(variable).unwrap_or_else(|_| panic!("{variable} names the folder of lib{library}.a: README.md tells how it is made"));
        println!("cargo:rerun-if-changed={folder}/lib{library}.a");
        println!("cargo:rustc-link-search=native={folder}");
        println!("cargo:rustc-link-lib=static={library}");
    }
}
