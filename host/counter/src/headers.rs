//! The system's numbers and layouts are written out, since the program has std alone. The tests of the
//! modules that have them hold them to the system's headers here, by its C compiler.

use std::io::Write;
use std::process::{Command, Stdio};

/// Wants each C expression to have its value.
pub fn hold(headers: &[&str], facts: &[(&str, i128)]) {
    let mut source = String::from("#define _GNU_SOURCE\n#include <stddef.h>\n");
    for header in headers {
        source += &format!("#include <{header}>\n");
    }
    for (expression, value) in facts {
        source += &format!("_Static_assert(({expression}) == {value}LL, \"not {value}\");\n");
    }
    let mut cc = Command::new("cc");
    let cc = cc.args(["-x", "c", "-std=c11", "-fsyntax-only", "-"]);
    let mut child =
        cc.stdin(Stdio::piped()).stderr(Stdio::piped()).spawn().expect("there is no cc");
    child.stdin.take().unwrap().write_all(source.as_bytes()).unwrap();
    let told = child.wait_with_output().unwrap();
    assert!(told.status.success(), "{}", String::from_utf8_lossy(&told.stderr));
}

/// Constants that have C's names, with their values.
macro_rules! of_c {
    ($($name:ident)*) => { [$((stringify!($name), $name as i128)),*] };
}
pub(crate) use of_c;
