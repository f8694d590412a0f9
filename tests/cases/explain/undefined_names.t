A name that no rule has, and the rule that may be meant by it.

A name that differs in one place from that of a rule is most often a misspelling: one letter is missing, one is too many,
one is another, or two are exchanged. The message asks whether that rule is meant.

  $ printf "Sum <- Numbr\nNumber <- [0-9]+\n" > missing; pegtool explain missing
  missing:1:8: the rule Numbr is not defined: did you mean Number?
  Sum <- Numbr
         ^
  [2]
  $ printf "Sum <- Numbber\nNumber <- [0-9]+\n" > more; pegtool explain more
  more:1:8: the rule Numbber is not defined: did you mean Number?
  Sum <- Numbber
         ^
  [2]
  $ printf "Sum <- Numder\nNumber <- [0-9]+\n" > other; pegtool explain other
  other:1:8: the rule Numder is not defined: did you mean Number?
  Sum <- Numder
         ^
  [2]
  $ printf "Sum <- Nubmer\nNumber <- [0-9]+\n" > exchanged; pegtool explain exchanged
  exchanged:1:8: the rule Nubmer is not defined: did you mean Number?
  Sum <- Nubmer
         ^
  [2]

The place may be the first or the last letter.

  $ printf "Sum <- umber\nNumber <- [0-9]+\n" > first; pegtool explain first
  first:1:8: the rule umber is not defined: did you mean Number?
  Sum <- umber
         ^
  [2]
  $ printf "Sum <- Numbers\nNumber <- [0-9]+\n" > last; pegtool explain last
  last:1:8: the rule Numbers is not defined: did you mean Number?
  Sum <- Numbers
         ^
  [2]

Capital letters may differ in all places, in short names, too.

  $ printf "Sum <- NUMBER\nNumber <- [0-9]+\n" > capitals; pegtool explain capitals
  capitals:1:8: the rule NUMBER is not defined: did you mean Number?
  Sum <- NUMBER
         ^
  [2]
  $ printf "Sum <- t\nT <- 'x'\n" > short; pegtool explain short
  short:1:8: the rule t is not defined: did you mean T?
  Sum <- t
         ^
  [2]

Names of one letter or two are too short for anything else: any two of one letter differ in one place.

  $ printf "A <- B\n" > one; pegtool explain one
  one:1:6: the rule B is not defined
  A <- B
       ^
  [2]
  $ printf "S <- Hex\nHe <- 'x'\nHx <- 'y'\n" > three; pegtool explain three
  three:1:6: the rule Hex is not defined: did you mean He?
  S <- Hex
       ^
  [2]
  $ printf "S <- He\nHex <- 'x'\n" > two; pegtool explain two
  two:1:6: the rule He is not defined
  S <- He
       ^
  [2]

A name that differs in two places isn't asked about. Of several rules the first one of the file is named.

  $ printf "Sum <- Nmbr\nNumber <- [0-9]+\n" > far; pegtool explain far
  far:1:8: the rule Nmbr is not defined
  Sum <- Nmbr
         ^
  [2]
  $ printf "Sum <- Numb\nNumc <- 'c'\nNuma <- 'a'\n" > several; pegtool explain several
  several:1:8: the rule Numb is not defined: did you mean Numc?
  Sum <- Numb
         ^
  [2]

What is written like a rule in a comment or in a literal isn't one.

  $ printf "# Numb <- 'a'\nSum <- 'Numb <-' Number\n" > comment; pegtool explain comment
  comment:2:18: the rule Number is not defined
  Sum <- 'Numb <-' Number
                   ^
  [2]
