// Files and directories under a root, with a name each.
abstract sig Object { name: Name }
sig Name {}
sig File extends Object {}
sig Directory extends Object { entries: set Object }
one sig Root extends Directory {}
fact { all o: Object - Root | one entries.o }
fact { no entries.Root }
fact { Object in Root.*entries }
fact { all d: Directory, disj a, b: d.entries | a.name != b.name }
run { some File && some d: Directory - Root | some d.entries } for 6
