Names of rules: two with one name, and names that no rule has.

The second definition of T is reported, at its name.

  $ pegtool check <(printf 'S <- U    T <- U    T <- U')
  {"column":21,"end":21,"line":1,"name":"T","refusal":"Duplicate","start":20}
  [2]

Of several names that no rule has the first one in the file is reported.

  $ pegtool check <(printf 'S <-S /T/U')
  {"column":8,"end":8,"line":1,"name":"T","refusal":"Undefined","start":7}
  [2]

Names are looked up in all forms; here all are found, and the star of the predicate can loop on the empty string.

  $ pegtool check <(printf "S <- [a-z]. 'xy'? (!S)* [a-z]+ &S")
  {"column":19,"end":23,"line":1,"refusal":"EmptyLoop","rule":"S","start":18}
  [2]

The undefined name in the predicate is found.

  $ pegtool check <(printf "S <- [a-z]. 'xy'? (!T)* [a-z]+ &S")
  {"column":21,"end":21,"line":1,"name":"T","refusal":"Undefined","start":20}
  [2]

Rules are numbered from 0 in the order of the file: S calls rule 1, whose body is the literal.

  $ printf "S <- T\nT <- 'a'" > st.peg; pegtool code st.peg
  {"code":[["end"],["call",1],["ret"],["test",0,[[97,97]]],["ret"]],"entries":[1,3]}

A parse can start from any rule by its name, and no rule is named U.

  $ pegtool parse st.peg <(printf a) --start T --rows
  {"consumed":1,"expected":[],"far":0,"result":"matched","rows":[[1,"T",0,1]]}
  $ pegtool parse st.peg <(printf a) --start U
  {"name":"U","refusal":"NoSuchStart"}
  [3]

From T the rule S is unused, and its name is at 0 to 1; from S the rule T is used.

  $ pegtool lint st.peg --start T --proved
  {"warnings":[{"column":1,"end":1,"kind":"UnusedRule","line":1,"proved":true,"rule":"S","start":0}]}
  [1]
  $ pegtool lint st.peg
  {"warnings":[]}

Counts don't hide a loop on the empty string if the code would be too large: the loop is reported first.

  $ pegtool check <(printf "S <- (((.{255}){255}){255} T{2,5})\nT <- (''{0,3})*")
  {"column":6,"end":50,"line":2,"refusal":"EmptyLoop","rule":"T","start":40}
  [2]
