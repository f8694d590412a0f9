The option --human of lint, which prints messages for people. Their places are those of the JSON, and the sentences are
those of docs/LINT.md. A message has the form that `explain` uses: the place, the sentence, the line of the place, and a
caret below the place.

The star of dots takes the whole text, so nothing is left for the literal. The note has the place of the star.

  $ printf "S <- .* 'x'\n" > g.peg
  $ pegtool lint g.peg --human
  g.peg:1:9: warning: this item never matches here: a repetition gives nothing back, so exclude the item: (!'x' .)* 'x'
  S <- .* 'x'
          ^
  g.peg:1:6: note: this repetition only ends where that item fails
  S <- .* 'x'
       ^
  [1]

Without the option the line is JSON.

  $ pegtool lint g.peg
  {"warnings":[{"by":[5,7],"column":9,"end":11,"kind":"NeverStops","line":1,"proved":true,"rule":"S","start":8}]}
  [1]

A rule that the start doesn't call has its name shown. It is called from another start, and then nothing is printed
and the status is 0.

  $ printf "S <- 'x'\nT <- 'y' S\n" > g.peg
  $ pegtool lint g.peg --human
  g.peg:2:1: warning: no parse from the start calls this rule: call it, remove it, or name the start with --start
  T <- 'y' S
  ^
  [1]

  $ pegtool lint g.peg --human --start T

The optional item never fails, so its negation always fails, and so does the sequence. Both have a message, in the
order of their starts.

  $ printf "List <- Item* !Item?\nItem <- 'x'\n" > g.peg
  $ pegtool lint g.peg --human
  g.peg:1:9: warning: this never matches: look for an item that always fails, or a rule that calls itself on every path
  List <- Item* !Item?
          ^
  g.peg:1:15: warning: this predicate always fails: its operator may be one too many
  List <- Item* !Item?
                ^
  [1]

Of a doubled slash the alternative between the slashes is empty. It never fails, so the next one is never tried.

  $ printf "S <- 'a' // 'b'\n" > g.peg
  $ pegtool lint g.peg --human
  g.peg:1:11: warning: this alternative is empty: write '' if it is meant
  S <- 'a' // 'b'
            ^
  g.peg:1:13: warning: this alternative is never tried: put the one that never fails last
  S <- 'a' // 'b'
              ^
  g.peg:1:11: note: this alternative never fails
  S <- 'a' // 'b'
            ^
  [1]

An empty alternative is a habit of other notations, which --proved leaves out.

  $ pegtool lint g.peg --human --proved
  g.peg:1:13: warning: this alternative is never tried: put the one that never fails last
  S <- 'a' // 'b'
              ^
  g.peg:1:11: note: this alternative never fails
  S <- 'a' // 'b'
            ^
  [1]

If only habits are there, nothing is left, and the status is 0. A tab of the line stays a tab, and so does the blank
below it.

  $ printf 'S <-\t[^x]\n' > g.peg
  $ pegtool lint g.peg --human
  g.peg:1:6: warning: this class holds the caret: for all other bytes write !'x' . in place of [^x]
  S <-	[^x]
      	^
  [1]

  $ pegtool lint g.peg --human --proved

T is a star and never fails, so `T?` is T.

  $ printf "S <- T? 'b'\nT <- 'a'*\n" > g.peg
  $ pegtool lint g.peg --human
  g.peg:1:6: warning: this operator has no effect: remove it
  S <- T? 'b'
       ^
  [1]

A letter of two bytes is two columns of a place and one blank above the caret.

  $ printf "S <- '\303\251' / '\303\251'\n" > g.peg
  $ pegtool lint g.peg --human
  g.peg:1:13: warning: this alternative is an earlier one again: remove it, or change what was copied
  S <- 'é' / 'é'
             ^
  g.peg:1:6: note: this alternative is the same
  S <- 'é' / 'é'
       ^
  [1]

Such a letter in a class is single bytes.

  $ printf 'S <- [\303\251]\n' > g.peg
  $ pegtool lint g.peg --human
  g.peg:1:6: warning: a class holds bytes, and a letter beyond ASCII has several: write a literal, or a byte as \xE9
  S <- [é]
       ^
  [1]

The note may be about another line than the warning.

  $ printf "Op <- '<'\n    / '<='\n" > g.peg
  $ pegtool lint g.peg --human
  g.peg:2:7: warning: this alternative never matters: put the longer one first
      / '<='
        ^
  g.peg:1:7: note: this alternative matches wherever that one does
  Op <- '<'
        ^
  [1]

The predicate fails before the sign that the item needs, and the first star leaves no blank for the second one.

  $ printf "S <- !'#' '#'\n" > g.peg
  $ pegtool lint g.peg --human
  g.peg:1:11: warning: this item never matches after the one before it: remove one of the two, or exchange them
  S <- !'#' '#'
            ^
  g.peg:1:6: note: this item only ends where that item fails
  S <- !'#' '#'
       ^
  [1]

  $ printf "S <- 'a' ' '* ' '* 'b'\n" > g.peg
  $ pegtool lint g.peg --human
  g.peg:1:15: warning: this item takes nothing after the one before it: remove one of the two
  S <- 'a' ' '* ' '* 'b'
                ^
  g.peg:1:10: note: this item only ends where that item takes no byte
  S <- 'a' ' '* ' '* 'b'
           ^
  [1]

Habits in a class are shown at the range or the byte, and a class with blanks at its ends as a whole. Its second blank
is a repeated byte, too.

  $ printf 'S <- [z-a]\n' > g.peg
  $ pegtool lint g.peg --human
  g.peg:1:7: warning: this range holds no byte: exchange its ends, or write the dash first in its class
  S <- [z-a]
        ^
  [1]

  $ printf 'S <- [+-]]\n' > g.peg
  $ pegtool lint g.peg --human
  g.peg:1:7: warning: this range goes to a closing bracket: write the dash first, or the bracket as \]
  S <- [+-]]
        ^
  [1]

  $ printf 'S <- [A-z]\n' > g.peg
  $ pegtool lint g.peg --human
  g.peg:1:7: warning: this range goes over signs: write [A-Za-z] in place of [A-z], or the dash first
  S <- [A-z]
        ^
  [1]

  $ printf 'S <- [0-9,a-f,A-F]\n' > g.peg
  $ pegtool lint g.peg --human
  g.peg:1:14: warning: the class holds a byte of this already: a class has no commas and no names
  S <- [0-9,a-f,A-F]
               ^
  [1]

  $ printf 'S <- [ T ]\n' > g.peg
  $ pegtool lint g.peg --human
  g.peg:1:6: warning: the class holds the spaces at its ends: remove them, or write \x20
  S <- [ T ]
       ^
  g.peg:1:9: warning: the class holds a byte of this already: a class has no commas and no names
  S <- [ T ]
          ^
  [1]

Of a literal over two lines the first one is shown.

  $ printf "S <- 'a\nb'\n" > g.peg
  $ pegtool lint g.peg --human
  g.peg:1:6: warning: this goes over the end of a line: write \n or \r
  S <- 'a
       ^
  [1]

A dot before the next rule is shown where it is.

  $ printf "S <- T .\nT <- 'b'\n" > g.peg
  $ pegtool lint g.peg --human
  g.peg:1:8: warning: this dot matches a byte and ends no rule: remove it, or write (.) if it is meant
  S <- T .
         ^
  [1]

The first thousand warnings have a message, and a note says that there are more. Here each rule but the first one is
unused.

  $ (echo "S <- 'x'"; for n in $(seq 1001); do echo "R$n <- 'y'"; done) > many.peg
  $ pegtool lint many.peg --human | grep -c ': warning: '
  1000
  $ pegtool lint many.peg --human | tail -n 1
  many.peg: note: there are more warnings
  $ head -n 1001 many.peg > fewer.peg; pegtool lint fewer.peg --human | tail -n 1
  ^
  $ pegtool lint fewer.peg --human | grep -c ': warning: '
  1000

The last line names the rules that count as spacing, in the order of the file. Spacing repeats blanks and comments, and
Comment is called by it alone. No warning is there, so the status is 0.

  $ printf "Words <- Spacing ([a-z]+ Spacing)* !.\n" > words.peg
  $ printf "Spacing <- ([ \\\\t\\\\n] / Comment)*\n" >> words.peg
  $ printf "Comment <- '#' (!'\\\\n' .)*\n" >> words.peg
  $ cat words.peg
  Words <- Spacing ([a-z]+ Spacing)* !.
  Spacing <- ([ \t\n] / Comment)*
  Comment <- '#' (!'\n' .)*
  $ pegtool lint words.peg --human
  words.peg: note: rules that count as spacing: Spacing, Comment

The line comes after the warnings.

  $ printf "S <- _ [^x] _\n_ <- ' '*\n" > g.peg
  $ pegtool lint g.peg --human
  g.peg:1:8: warning: this class holds the caret: for all other bytes write !'x' . in place of [^x]
  S <- _ [^x] _
         ^
  g.peg: note: rules that count as spacing: _
  [1]

A grammar without warnings and without spacing prints nothing.

  $ printf "S <- 'a'\n" > g.peg
  $ pegtool lint g.peg --human

A refused grammar, an unknown start and a missing file have the messages and the statuses of `explain`.

  $ printf "S <- T\n" > refused.peg
  $ pegtool lint refused.peg --human
  refused.peg:1:6: the rule T is not defined
  S <- T
       ^
  [2]

  $ pegtool lint g.peg --human --start X
  g.peg: no rule is named X
  [3]

  $ pegtool lint missing.peg --human
  pegtool: missing.peg: can't be opened
  [4]

A name is shown with escapes for bytes that can't be printed.

  $ printf "S <- [b-a]\n" > $'g\t.peg'
  $ pegtool lint $'g\t.peg' --human
  g\t.peg:1:7: warning: this range holds no byte: exchange its ends, or write the dash first in its class
  S <- [b-a]
        ^
  [1]
