// Lists of cells with a head and a tail, and handles at them.
sig Item {}
abstract sig Cell {}
one sig Nil extends Cell {}
sig Cons extends Cell { head: one Item, tail: one Cell }
sig Handle { at: one Cell }
fact { no c: Cons | c in c.^tail }
fact { Cell - Nil in Handle.at.*tail }
run { some disj h, k: Handle | h.at != k.at && some c: Cons | c in h.at.*tail && c in k.at.*tail } for 4
