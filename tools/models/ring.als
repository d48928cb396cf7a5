// Processes in a ring, with identifiers in an order.
sig Id { less: set Id }
sig Process { next: one Process, id: one Id }
fact { all p: Process | Process in p.^next }
fact { no disj p, q: Process | p.id = q.id }
fact { all disj a, b: Id | a in b.less <=> b not in a.less }
fact { no a: Id | a in a.less }
fact { all a, b, c: Id | (b in a.less && c in b.less) => c in a.less }
run { some Process } for 4
