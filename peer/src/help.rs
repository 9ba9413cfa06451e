//! What the programs say of themselves.

pub const HOUSE: &str = "\
house I N plays house I of N, with N from 1 to 16 and I below N.
It reads calls and messages that came, a line each, and prints what it sends.

options, in any place
  --names      a refusal is printed with its name: no 4 no such field
  --framed     a message is printed as send J HEX, with the house J that it is for,
               and the answer to each line ends in a line of its own: ok, or no K NAME
  --help       prints this
  --version    prints the program's name, and the kit that it is proved with

lines, each with an example for house 0 of 2
  make K       makes object 16 * K + I, and has it in hand as a root    make 1
  link O P     puts P at the end of the fields of O                     link 16 16
  unlink O P   takes the oldest field P of O away                       unlink 16 16
  load O P     has field P of O in hand as a root                       load 16 16
  drop O       has O in hand no longer                                  drop 16
  ask O J      asks the home of O to hand it to house J                 ask 16 1
  got HEX      takes a message that has come                            got 01000000100001
  collect      frees what neither roots nor listed objects lead to      collect
  word J       tells house J which of its objects are held here         word 1
  join C       joins census C                                           join 1
  tell         tells the homes of all far references in use             tell
  round        at house 0: asks every house whether it is calm          round
  show         prints the objects, the roots and the list               show
  status       prints the census, the tally, the round and the counts   status
  help         prints this                                              help
  # TEXT       is passed over, and so is an empty line                  # a remark

Numbers are decimal. HEX is two hexadecimal digits for each byte of a message.
What each line does, and what the numbers K of no K mean: docs/RULES.md
";

pub const REHEARSE: &str = "\
rehearse N plays N houses, from 1 to 4, with its input as the network between them.
It keeps each message that is sent, and prints it after its number, counted from 1.

options, in any place
  --names      a refusal is printed with its name: no 4 no such field
  --help       prints this
  --version    prints the program's name, and the kit that it is proved with

lines, each with an example
  H CALL       the call at house H                                      0 make 1
  H got HEX    bytes come to house H, whoever wrote them                0 got 01000000100001
  H deliver M  message M comes to house H                               1 deliver 1
  deliver M    message M comes to whom it is for                        deliver 1
  settle       the collector frees all that does not matter             settle
  show         prints the objects, the roots and the lists              show
  status       prints the census, the tally, the round and the counts   status
  help         prints this                                              help
  # TEXT       is passed over, and so is an empty line                  # a remark

calls, each with an example at house 0
  make K       makes object 16 * K + H, and has it in hand as a root    0 make 1
  link O P     puts P at the end of the fields of O                     0 link 16 16
  unlink O P   takes the oldest field P of O away                       0 unlink 16 16
  load O P     has field P of O in hand as a root                       0 load 16 16
  drop O       has O in hand no longer                                  0 drop 16
  ask O J      asks the home of O to hand it to house J                 0 ask 16 1
  collect      frees what neither roots nor listed objects lead to      0 collect
  word J       tells house J which of its objects are held here         0 word 1
  join C       joins census C                                           0 join 1
  tell         tells the homes of all far references in use             0 tell
  round        at house 0: asks every house whether it is calm          0 round

Numbers are decimal. HEX is two hexadecimal digits for each byte of a message.
What each line does, and what the numbers K of no K mean: docs/RULES.md
";
