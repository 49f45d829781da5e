//! A test that prints more than is kept where a limit asks for it, and fails with a long message.

#[test]
#[ignore = "prints much"]
fn prints_much() {
    println!("the begin\n{}\nthe end", "0123456789abcde\n".repeat(2_500));
    panic!("{}", "it has a long message. ".repeat(100));
}
