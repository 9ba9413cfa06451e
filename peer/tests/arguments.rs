//! What the arguments of a program ask for, and what is printed in each form.

use peer::form::Form;
use peer::house::House;
use peer::house_lines::play;
use peer::names::HouseId;
use peer::program::Wanted;

fn read(arguments: &[&str]) -> Wanted {
    Wanted::read(&arguments.iter().map(|argument| argument.to_string()).collect::<Vec<String>>())
}

#[test]
fn options_stand_anywhere() {
    assert_eq!(read(&["0", "2"]), Wanted::Play(Form::Plain, vec![0, 2]));
    assert_eq!(read(&["0", "--names", "2"]), Wanted::Play(Form::Named, vec![0, 2]));
    assert_eq!(read(&["--framed", "0", "2", "--names", "--names"]), Wanted::Play(Form::Framed, vec![0, 2]));
    assert_eq!(read(&["--version", "x", "--help"]), Wanted::Help);
    assert_eq!(read(&["--version", "-1"]), Wanted::Version);
}

#[test]
fn anything_else_is_wrong() {
    for wrong in ["--names=x", "--frame", "--", "-", "-h", "", "--Names", "help", "x"] {
        assert_eq!(read(&["0", "2", wrong]), Wanted::Nothing, "{wrong}");
    }
}

#[test]
fn each_line_is_answered_to_a_last_line() {
    let mut house = House::new(HouseId(0), 2);
    let mut told = |line: &str| play(&mut house, line.as_bytes(), Form::Framed);
    assert_eq!(told(""), "ok\n");
    assert_eq!(told("# a remark"), "ok\n");
    assert_eq!(told("make 1"), "ok\n");
    assert_eq!(told("make 1"), "no 10 a number that does not rise, or a counter at its end\n");
    assert_eq!(told("ask 16 1"), "send 0 01000000100001\nok\n");
    assert_eq!(told("got 01000000100001"), "send 1 02000000100100000001\nok\n");
    assert_eq!(told("round"), "send 0 060000000000000001\nsend 1 060000000000000001\nok\n");
    assert_eq!(told("status"), "house 0 census 0 tally 0 round 1 objects 1 roots 1 lines 1\nok\n");
    assert_eq!(told("show"), "house 0 census 0\nobject 16\nroot 16\nline 16 1 1 0\nok\n");
    assert_eq!(told("show 1"), "no 1 not of the right form\n");
}
