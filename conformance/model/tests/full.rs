//! FULL (01, Weight).

mod common;

use common::{Server, FRESH};
use model::engine::End;

#[test]
fn full() {
    let long = "a".repeat(4_200);
    let mut server = Server::new("desk");
    server.prepare(&[&format!("set x = \"{long}\"")]);
    // The value alone is too heavy: 2 * (1 + 1 + 4200).
    server.ends("admin", &["return {a=x,b=x}"], End::Full);
    server.one("admin", "local y = x", End::Full);
    server.one("admin", "set y = x", End::Full);
    server.one("admin", "set x = {a=x,b=x}", End::Full);
    // A heavy value is no failure that hides one, nor a denial.
    server.one("admin", "append to x with {a=x,b=x}", End::Failed);
    server.one("admin", "local x = {a=x,b=x}", End::Failed);
    server.one("admin", "set y = {a=x,b=x,c=nosuch}", End::Failed);
    server.ends(
        "admin",
        &["set l = []", "append to l with {a=x,b=x}", "return l"],
        End::Full,
    );
}

#[test]
fn full_to_the_last_unit() {
    // x weighs 2, its items 1 each, and 28 is the fresh state.
    let list = |count: usize| format!("{FRESH}V|x|L\n{}", "S|\n".repeat(count));
    let mut server = Server::of_text(&list(8_161));
    server.one("admin", "append to x with \"a\"", End::Full);
    server.one("admin", "local y = \"\"", End::Full);
    server.one("admin", "append to x with \"\"", End::Returned);
    assert_eq!(server.weight(), 8_192);
    server.one("admin", "append to x with \"\"", End::Full);
    server.one("admin", "append to x with []", End::Returned);
    server.one("admin", "change password admin \"desks\"", End::Full);
    server.one("admin", "create principal p \"\"", End::Full);
    server.one("admin", "set delegation x admin read -> anyone", End::Full);
    server.one("admin", "foreach y in x replacewith y", End::Returned);
    server.one("admin", "foreach y in x replacewith \"a\"", End::Full);
    server.one("admin", "foreach y in x replacewith {a=y}", End::Full);
    // Locals count, and go at the end of the program.
    let mut server = Server::of_text(&list(8_159));
    let lines = ["local y = \"\"", "append to x with \"\"", "return \"\""];
    server.ends("admin", &lines, End::Returned);
    server.ends("admin", &lines, End::Full);
    assert_eq!(server.weight(), 8_190);
}
