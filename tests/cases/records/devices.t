An input that fails in the middle of a stream.

The script runs a command whose standard input gives the first bytes of a file and then fails. The input is one side of a
pseudo-terminal whose other side is closed: a read gives what was written there, and then the error EIO.

  $ cat > failing.py << 'END'
  > import os, subprocess, sys, tty
  > count, name, *words = sys.argv[1:]
  > given, other = os.openpty()
  > tty.setraw(other)
  > with open(name, "rb") as file:
  >     os.write(other, file.read(int(count)))
  > os.close(other)
  > sys.exit(subprocess.run(words, stdin=given).returncode)
  > END
  $ printf "S <- 'a'+\n" > g; printf 'a\naa\nb\n\naaa\n' > some

The fourth record is empty, so it doesn't match, as the third one.

  $ pegtool parse g some --lines --no-tree | tee whole | wc -l
  5

Wherever a read fails, the records that have ended by then have their lines, and the others have none. The status is 4.
Each number of bytes up to all 12 is tried. A record has ended if its line end was read.

  $ for most in $(seq 0 12); do
  >   python3 failing.py $most some pegtool parse g --lines --no-tree > part 2> /dev/null; echo "status $?"
  >   head -n $(head -c $most some | wc -l) whole | cmp - part
  > done | sort | uniq -c
       13 status 4

The fault is that of standard input.

  $ python3 failing.py 3 some pegtool parse g --lines --no-tree
  {"record":1,"consumed":1,"expected":[[5,8]],"far":1,"result":"matched"}
  pegtool: file fault
  standard input: Unknown error
  [4]

A line is printed when its record is there, before the stream ends, as after tail -f. Here the second record is written
only after the first line was seen, for which a minute is waited at most.

  $ (echo a; for turn in $(seq 600); do [ -s lines ] && break; sleep 0.1; done; cp lines early; echo b) |
  >   pegtool parse g --lines --no-tree > lines
  [1]
  $ cat early
  {"record":1,"consumed":1,"expected":[[5,8]],"far":1,"result":"matched"}
  $ wc -l < lines
  2
