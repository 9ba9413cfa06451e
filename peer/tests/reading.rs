//! How lines and numbers are read.

mod dialogue;

use dialogue::rehearse;
use peer::form::Form;
use peer::net::Net;
use peer::text;

#[test]
fn lines() {
    let none: Vec<&[u8]> = Vec::new();
    assert_eq!(text::lines(b""), none);
    assert_eq!(text::lines(b"a\n\nb"), vec![b"a".as_slice(), b"", b"b"]);
    assert_eq!(text::lines(b"a\n"), vec![b"a".as_slice()]);
}

#[test]
fn numbers() {
    assert_eq!(text::decimal(b"0007"), Some(7));
    assert_eq!(text::decimal(b""), None);
    assert_eq!(text::decimal(b"-1"), None);
    assert_eq!(text::decimal(b"1_0"), None);
    assert_eq!(text::decimal(b"999999999999999999999999"), Some(u64::MAX));
    assert_eq!(text::from_hexadecimal(b"0aFf"), Some(vec![10, 255]));
    assert_eq!(text::from_hexadecimal(b"0"), None);
    assert_eq!(text::from_hexadecimal(b"0g"), None);
}

#[test]
fn lines_that_are_passed_over_and_spaces() {
    let mut net = Net::new(1);
    let told: [(&[u8], &str); 9] = [
        (b"", ""),
        (b" \t\r", ""),
        (b"# 0 make 1", ""),
        (b"  #0 make 1", ""),
        (b"\t00 make\t 0001 \r", ""),
        (b"0 make 1 # again", "no 1\n"),
        (b"0 make\x0b2", "no 1\n"),
        (b"0 make \xff", "no 1\n"),
        (b"show", "house 0 census 0\nobject 16\nroot 16\n"),
    ];
    for (line, printed) in told {
        assert_eq!(net.play(line).output(Form::Plain), printed, "{line:?}");
    }
}

#[test]
fn messages_are_kept_and_broadcast() {
    rehearse(
        2,
        "
> 1 join 7
> 0 round
1 060000000000000001
> deliver 1
2 070000000000000001000100000000
no 8
> 0 got 060000000700000000
3 070000000700000000000100000000
> 0 got 070000000700000000000100000000
> 0 round
4 060000000700000001
> 0 round
5 060000000700000001
",
    );
}
