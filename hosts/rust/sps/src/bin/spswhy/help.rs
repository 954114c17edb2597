//! What `--help` says.

pub const HELP: &str = "\
usage: spswhy [--tape] [--json] R S X
       spswhy [--tape] [--json] --kind LETTER FILE
       spswhy [--tape] [--json] FOLDER ..
       spswhy --messages | --version | --help

Checks the SPS set of the files R (receivers), S (shots) and X (relations), lines of
80 columns, CR and LF. With --kind it checks the form of one file without the others: the
letter, R, S or X, says what it has to be, and is never guessed. With --tape the files
are tapes: joined records of 80 bytes in EBCDIC, code page 037, ended by one with EOF in
its first columns. Options stand before the names; -- ends them. Prints one line on
standard output, for one file without counts:

    ACCEPTED receivers shots relation-lines traces dead-traces
    REFUSED number file line column

A refusal is the first breach. Standard error says why: the place as path:line:column:,
the rule that is breached, what was found and what would be right, the line with a mark
under the column, and the other lines that the rule is about. The line of a tape is shown
translated. Files that look like the other medium are named there too, and judged as they
are asked to be. --messages prints the table of all messages.

Of a folder the three files are those whose names end in a point, R, S or X in either case,
and digits: line7.r01, line7.s01, line7.x01. Two of a kind are not judged. One folder is
judged as its three files are. Of several the lines begin with the folder and a colon,
NO VERDICT stands for one that could not be judged, and standard error ends with a summary.

With --json standard output has one object a set in place of the line, each on a line, and
standard error has no messages. Its fields:

    folder    the folder, or null where files are given
    files     the paths by letter: R, S, X, or the one kind
    status    0, 1 or 2, as below
    verdict   the line as above, or null
    counts    receivers, shots, relations, traces, dead_traces of an accepted set, or null
    refusal   null, or number, file, line, column, path, rule, found (a list of sentences),
              text (the line, or null), others (a list of path, line, column, what, text),
              looks (a sentence on files of the other medium, or null)
    error     why there is no verdict, or null

Bytes of a path that are no UTF-8 stand there as U+FFFD.

Status 0: accepted. 1: refused. 2: no verdict, since a file could not be read, the
arguments are others than these, or the verdict could not be written. Of several folders 2
where one has no verdict, otherwise 1 where one is refused.
Standard input is not read, nor a compressed file (.gz).
";
