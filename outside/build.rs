//! Builds what the program `bench` times the receiver against: the C of c/, and cpp/itpp.cpp where IT++ is installed. Tells the program
//! which compilers and which IT++ these were.
use std::env;
use std::path::{Path, PathBuf};
use std::process::Command;

/// The line that a program prints when it is asked for its version, where it is installed.
fn version(program: &str) -> Option<String> {
    printed(program, "--version").map(|text| text.lines().next().unwrap_or("").to_string())
}

/// What a program prints, where it is installed.
fn printed(program: &str, argument: &str) -> Option<String> {
    let output = Command::new(program).arg(argument).output().ok().filter(|output| output.status.success())?;
    Some(String::from_utf8_lossy(&output.stdout).trim().to_string())
}

/// Compiles a file to an object that the program is linked with.
fn compile(compiler: &str, arguments: &[&str], file: &str, object: &str) {
    let object = Path::new(&env::var_os("OUT_DIR").unwrap()).join(object);
    let status =
        Command::new(compiler).args(["-O3", "-fPIE", "-Wall", "-Wextra"]).args(arguments).args(["-c", file, "-o"]).arg(&object).status();
    assert!(matches!(status, Ok(status) if status.success()), "{} did not compile {}", compiler, file);
    link(&object.display().to_string());
}

/// Adds an argument to the linker's, for the program alone.
fn link(argument: &str) {
    println!("cargo:rustc-link-arg-bin=bench={}", argument);
}

/// Compiles the shim of IT++, where that is installed, and answers its version.
fn compile_itpp() -> Option<String> {
    let version = version("itpp-config")?;
    let flags = printed("itpp-config", "--cflags")?;
    let flags: Vec<&str> = flags.split_whitespace().chain(["-DNDEBUG"]).collect();
    compile("c++", &flags, "cpp/itpp.cpp", "itpp.o");
    printed("itpp-config", "--libs")?.split_whitespace().for_each(link);
    link("-lstdc++");
    Some(format!("IT++ {}", version))
}

fn main() {
    for folder in ["c", "cpp"] {
        println!("cargo:rerun-if-changed={}", folder);
    }
    let cc = version("cc").expect("the benchmarks need a C compiler, and there is no cc");
    compile("cc", &["-std=c11"], "c/clock.c", "clock.o");
    compile("cc", &["-std=c11"], "c/core.c", "core.o");
    let itpp = compile_itpp().unwrap_or_else(|| {
        compile("cc", &["-std=c11"], "cpp/no_itpp.c", "no_itpp.o");
        "IT++ (libitpp-dev) was not there when this was built: its column is empty".to_string()
    });
    let rustc = PathBuf::from(env::var_os("RUSTC").unwrap());
    println!("cargo:rustc-env=BENCH_CC={}", cc);
    println!("cargo:rustc-env=BENCH_RUSTC={}", version(&rustc.to_string_lossy()).unwrap());
    println!("cargo:rustc-env=BENCH_ITPP={}", itpp);
}
