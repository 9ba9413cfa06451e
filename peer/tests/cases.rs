//! Small runs of houses that hand references on, collect and take censuses.

mod dialogue;

use dialogue::rehearse;

const HANDED_OVER: &str = "
> 0 make 1
> 0 ask 16 1
1 01000000100001
> deliver 1
2 02000000100100000001
> deliver 2
> 0 drop 16
> 0 collect
> show
house 0 census 0
object 16
line 16 1 1 0
house 1 census 0
root 16
";

#[test]
fn what_another_house_holds_stays() {
    rehearse(2, HANDED_OVER);
}

#[test]
fn a_word_ends_the_line_and_a_collection_frees() {
    let dialogue = HANDED_OVER.to_string()
        + "
> 1 drop 16
> 1 word 0
3 030100000000010000
> deliver 3
> 0 collect
> show
house 0 census 0
house 1 census 0
";
    rehearse(2, &dialogue);
}

#[test]
fn a_word_from_before_the_give_ends_nothing() {
    rehearse(
        2,
        "
> 0 make 1
> 0 ask 16 1
1 01000000100001
> deliver 1
2 02000000100100000001
> 1 word 0
3 030100000000000000
> deliver 2
> deliver 3
> 0 drop 16
> 0 collect
> show
house 0 census 0
object 16
line 16 1 1 0
house 1 census 0
root 16
",
    );
}

#[test]
fn a_give_that_comes_twice_is_taken_once() {
    rehearse(2, &(HANDED_OVER.to_string() + "> deliver 2\nno 7\n"));
}

#[test]
fn an_ask_that_comes_after_the_object_is_freed_finds_nothing() {
    rehearse(
        3,
        "
> 0 make 1
> 0 ask 16 1
1 01000000100001
> deliver 1
2 02000000100100000001
> deliver 2
> 0 drop 16
> 1 ask 16 2
3 01000000100102
> 1 drop 16
> 1 word 0
4 030100000000010000
> deliver 4
> 0 collect
> deliver 3
no 5
> show
house 0 census 0
house 1 census 0
house 2 census 0
",
    );
}

/// 16 in house 0 and 33 in house 1, each in a field of the other.
const RING: &str = "
> 0 make 1
> 1 make 2
> 0 ask 16 1
1 01000000100001
> deliver 1
2 02000000100100000001
> deliver 2
> 1 link 33 16
> 1 drop 16
> 1 ask 33 0
3 01000000210100
> deliver 3
4 02000000210000000001
> deliver 4
> 0 link 16 33
> 0 drop 33
";

const RING_LET_GO: &str = "
> 0 drop 16
> 1 drop 33
> 0 word 1
5 03000100000001000100000021
> 1 word 0
6 03010000000001000100000010
> deliver 5
> deliver 6
> 0 collect
> 1 collect
> show
house 0 census 0
object 16 33
line 16 1 1 0
house 1 census 0
object 33 16
line 33 0 1 0
> 0 join 1
> 1 join 1
> 0 tell
> 1 tell
> 0 round
7 060000000100000001
> deliver 7
8 070000000100000001000100000000
9 070000000100000001010100000000
> deliver 8
> deliver 9
> 0 round
10 060000000100000002
> deliver 10
11 070000000100000002000100000000
12 070000000100000002010100000000
> deliver 11
> deliver 12
13 0800000001
> deliver 13
> 0 collect
> 1 collect
> show
house 0 census 1
house 1 census 1
";

#[test]
fn a_census_frees_a_ring() {
    rehearse(2, &[RING, RING_LET_GO].concat());
}

const RING_HELD: &str = "
> 0 ask 16 2
5 01000000100002
> deliver 5
6 02000000100200000001
> deliver 6
> 0 drop 16
> 1 drop 33
> 0 word 1
7 03000100000001000100000021
> 1 word 0
8 03010000000001000100000010
> 2 word 0
9 03020000000001000100000010
> deliver 7
> deliver 8
> deliver 9
> 0 join 1
> 1 join 1
> 2 join 1
> 0 tell
> 1 tell
> 2 tell
10 04000000010000001002
> deliver 10
11 05000000010000001002
> deliver 11
> 0 tell
12 04000000010000002100
> deliver 12
13 05000000010000002100
> deliver 13
> 1 tell
14 04000000010000001001
> deliver 14
15 05000000010000001001
> deliver 15
> 0 round
16 060000000100000001
> deliver 16
17 070000000100000001000100000002
18 070000000100000001010100000001
19 070000000100000001020100000000
> deliver 17
> deliver 18
> deliver 19
> 0 round
20 060000000100000002
> deliver 20
21 070000000100000002000100000002
22 070000000100000002010100000001
23 070000000100000002020100000000
> deliver 21
> deliver 22
> deliver 23
24 0800000001
> deliver 24
> 0 collect
> 1 collect
> 2 collect
> show
house 0 census 1
object 16 33
line 16 1 1 1
line 16 2 1 1
house 1 census 1
object 33 16
line 33 0 1 1
house 2 census 1
root 16
";

#[test]
fn a_ring_that_a_third_house_holds_stays() {
    rehearse(3, &[RING, RING_HELD].concat());
}

/// House 0 takes 33 between its reply to round 1 and house 1's, by a line of the census before.
const TAKEN_BETWEEN: &str = "
> 0 make 1
> 0 ask 16 1
1 01000000100001
> deliver 1
2 02000000100100000001
> deliver 2
> 1 make 2
> 1 link 33 16
> 1 drop 16
> 1 word 0
3 03010000000001000100000010
> deliver 3
> 0 drop 16
> 0 join 1
> 0 round
4 060000000100000001
> 0 deliver 4
5 070000000100000001000100000000
> 1 ask 33 0
6 01000000210100
> deliver 6
7 02000000210000000001
> deliver 7
> 0 word 1
8 03000100000001000100000021
> deliver 8
> 1 drop 33
> 1 deliver 4
9 070000000100000001010100000000
> deliver 5
> deliver 9
> 0 round
10 060000000100000002
> 1 deliver 10
11 070000000100000002010100000000
> 0 tell
12 04000000010000002100
> deliver 12
13 05000000010000002100
> deliver 13
> 0 deliver 10
14 070000000100000002000000000000
> deliver 11
> deliver 14
> 0 round
15 060000000100000003
> deliver 15
16 070000000100000003000100000000
17 070000000100000003010000000001
> deliver 16
> deliver 17
> 1 tell
18 04000000010000001001
> deliver 18
19 05000000010000001001
> deliver 19
> 0 round
20 060000000100000004
> deliver 20
21 070000000100000004000100000001
22 070000000100000004010100000001
> deliver 21
> deliver 22
> 0 round
23 060000000100000005
> deliver 23
24 070000000100000005000100000001
25 070000000100000005010100000001
> deliver 24
> deliver 25
26 0800000001
> deliver 26
> 0 collect
> 1 collect
> show
house 0 census 1
object 16
root 33
line 16 1 1 1
house 1 census 1
object 33 16
line 33 0 1 1
";

#[test]
fn a_house_that_took_something_since_round_1_is_not_calm_at_round_2() {
    rehearse(2, TAKEN_BETWEEN);
}
