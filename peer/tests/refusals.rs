//! Each number of refusal, and which one is given where several apply.

mod dialogue;

use dialogue::rehearse;
use peer::form::Form;
use peer::net::Net;

const WRONG_CALLS: &str = "
> 0 make 0
no 1
> 0 make
no 1
> 0 make 1 2
no 1
> 0 make +1
no 1
> 0 Make 1
no 1
> 0 link 15 16
no 1
> 0 link 16 18
no 1
> 0 drop 4294967312
no 1
> 0 ask 16 2
no 1
> 0 word 2
no 1
> 2 collect
no 1
> 0 got
no 1
> 0 got 080000000
no 1
> 0 got 08000000zz
no 1
> 0
no 1
> 0 show
no 1
> deliver 0
no 1
> deliver 1
no 1
> show
house 0 census 0
house 1 census 0
";

#[test]
fn calls_of_the_wrong_form() {
    rehearse(2, WRONG_CALLS);
}

#[test]
fn messages_of_the_wrong_form() {
    rehearse(
        2,
        "
> 0 got 00
no 1
> 0 got 09
no 1
> 0 got 01000000100001ff
no 1
> 0 got 010000001000
no 1
> 0 got 01000000000001
no 1
> 0 got 01000000120001
no 1
> 0 got 01000000100002
no 1
> 0 got 0301000000000000020000002000000010
no 1
> 0 got 0301000000000000020000001000000010
no 1
> 0 got 03010000000000000100000011
no 1
> 0 got 070000000000000001000200000000
no 1
",
    );
}

#[test]
fn roots_and_fields() {
    rehearse(
        2,
        "
> 0 make 1
> 0 make 2
> 0 drop 48
no 3
> 0 link 16 48
no 3
> 0 link 17 16
no 3
> 0 unlink 16 32
no 4
> 0 load 16 32
no 4
> 0 link 16 32
> 0 link 16 16
> 0 link 16 32
> 0 unlink 16 32
> 0 ask 48 1
no 3
> show
house 0 census 0
object 16 16 32
object 32
root 16
root 32
house 1 census 0
",
    );
}

#[test]
fn asks_and_gives() {
    rehearse(
        2,
        "
> 0 make 1
> 0 ask 16 1
1 01000000100001
> 1 deliver 1
no 2
> 0 drop 16
> 0 deliver 1
no 6
> 1 got 01000000100001
no 2
> 0 got 01000000200001
no 5
> 1 got 02000000110100000001
no 2
> 1 got 02000000100100000000
no 7
> 1 got 02000000100000000001
no 2
",
    );
}

#[test]
fn the_handing_home_of_an_own_object() {
    rehearse(
        1,
        "
> 0 make 1
> 0 ask 16 0
1 01000000100000
> deliver 1
> 0 drop 16
> deliver 1
no 6
",
    );
}

const CENSUSES: &str = "
> 0 join 0
no 10
> 0 join 5
> 0 join 5
no 10
> 0 join 4294967296
no 10
> 0 got 040000000400000010 01
no 1
> 0 got 04000000040000001001
no 8
> 0 got 05000000040000001100
no 8
> 0 got 060000000400000001
no 8
> 0 got 070000000600000001000100000000
no 8
> 0 got 0800000006
no 8
> 0 got 04000000060000001001
1 05000000060000001001
> 1 round
no 11
> 1 word 1
no 11
> 0 make 268435456
no 10
> 0 make 268435455
> 0 make 268435455
no 10
> show
house 0 census 6
object 4294967280
root 4294967280
house 1 census 0
";

#[test]
fn censuses_and_counters() {
    rehearse(2, CENSUSES);
}

#[test]
fn full_tables() {
    let mut net = Net::new(1);
    for number in 1..=256 {
        assert_eq!(net.play(format!("0 make {number}").as_bytes()).output(Form::Plain), "");
    }
    let told = [
        ("0 make 257", "no 9\n"),
        ("0 make 99999999999999999999", "no 9\n"),
        ("0 make 0", "no 1\n"),
        ("0 link 16 32", ""),
        ("0 drop 32", ""),
        ("0 make 257", ""),
        ("0 load 16 32", "no 9\n"),
        ("0 load 16 48", "no 4\n"),
        ("0 drop 48", ""),
        ("0 load 16 32", ""),
        ("0 load 16 32", ""),
    ];
    for (line, printed) in told {
        assert_eq!(net.play(line.as_bytes()).output(Form::Plain), printed, "{line}");
    }
    for place in 1..8 {
        assert_eq!(net.play(b"0 link 16 16").output(Form::Plain), "", "field {place}");
    }
    assert_eq!(net.play(b"0 link 16 16").output(Form::Plain), "no 9\n");
}

#[test]
fn a_thousand_and_twenty_four_objects() {
    let mut net = Net::new(1);
    for number in 1..=1024u32 {
        assert_eq!(net.play(format!("0 make {number}").as_bytes()).output(Form::Plain), "");
        assert_eq!(net.play(format!("0 drop {}", number * 16).as_bytes()).output(Form::Plain), "");
    }
    assert_eq!(net.play(b"0 make 1025").output(Form::Plain), "no 9\n");
    assert_eq!(net.play(b"0 collect").output(Form::Plain), "");
    assert_eq!(net.play(b"0 make 1025").output(Form::Plain), "");
}

#[test]
fn two_thousand_and_forty_eight_lines() {
    let mut net = Net::new(4);
    for number in 1..=1024u32 {
        let name = number * 16;
        net.play(format!("0 make {number}").as_bytes());
        for other in 1..=2 {
            net.play(format!("0 ask {name} {other}").as_bytes());
            let ask = net.sent.len();
            net.play(format!("deliver {ask}").as_bytes());
        }
        if number > 1 {
            net.play(format!("0 drop {name}").as_bytes());
        }
    }
    let told = [
        ("0 ask 16 3", "4097 01000000100003\n"),
        ("deliver 4097", "no 9\n"),
        ("deliver 1", "4098 02000000100100000401\n"),
        ("1 deliver 4096", "no 2\n"),
        ("2 deliver 4096", ""),
        ("2 drop 16384", ""),
        ("2 word 0", "4099 030200000004000000\n"),
        ("deliver 4099", ""),
        ("deliver 4097", "4100 02000000100300000001\n"),
    ];
    for (line, printed) in told {
        assert_eq!(net.play(line.as_bytes()).output(Form::Plain), printed, "{line}");
    }
}
