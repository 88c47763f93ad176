//! What is printed for a command line that is not understood, and for `help`.

/// The commands, for the technician.
pub const USAGE: &str = "\
Holds the proved archive libcaptable.a to the reference model.

usage: yavrinks-peer COMMAND

  differential [SEED [REQUESTS [INPUTS]]]
      Puts the same questions to the archive and to the model and compares every answer: REQUESTS
      requests in both forms of the step, with the other calls at times, then INPUTS images of both
      versions, as many imports of take-and-grant tables and as many inputs of the program confine.
      Prints how often each number was answered, how often a request that was done had an empty copy
      and what that met, how often a test was answered where a member holds wk alone that the list
      lacks, how many rounds accepted tests took, how often makers were recorded, found and refused,
      and what reclaims that were done emptied and reset. Potential access and the test are compared in
      both ways, by the rules and by groups, and so is the version of both that is written for speed;
      how many groups the tables had is counted. At the first difference it prints the case and both
      answers.
      The same SEED asks the same on every machine. Without numbers: seed 1, 10000000 requests,
      1000000 inputs.

  bench
      Times each call of the archive and of the model in turn, on table K and on a table with every
      slot filled, a send and a fetch whose copies come out empty, a fetch that is weakened to wk,
      reclaims of a number that one slot, two slots and 504 slots name, the test where members hold
      64 wk alone and the list is empty, test and chain on 64 objects in a row, upwards and downwards,
      images of both versions, soundness and images where every object has a maker, the longest import
      and a small one, the chain against the test that it begins with, and the step on a lent table
      against one soundness scan in C. Run it on a machine that does nothing else.

  bench groups
      Times potential access and the confinement test by groups, in turn with the same by the rules, the
      version that is written for speed and the model: on tables of one group, of many groups with wk
      between them, and on random ones of each density. Prints two tables.

  stack
      Measures how many bytes of stack each call of the archive takes (x86-64 alone). The header
      states these numbers, and a test holds it to them.

  instructions
      Counts the instructions of each call of the archive, best and worst of several inputs. Needs
      the program valgrind.

  help
      Prints this text.

Findings go to standard output. What a command does and how far it is goes to standard error.

Exit status: 0 if all is well, 1 for a difference or a measurement that could not be made, 2 for a
command line that is not understood.
";
