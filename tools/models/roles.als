// Roles that grant permits and stand under one another, and accounts that hold roles.
sig Permit {}
sig Role { grants: set Permit, under: lone Role }
sig Account { holds: set Role }
fact { no r: Role | r in r.^under }
fact { all r: Role | some r.grants && (some r.under => r.under.grants in r.grants) }
fact { all a: Account | some a.holds && no disj r, q: a.holds | r in q.^under }
fact { all p: Permit | some a: Account | p in a.holds.grants }
run { some under && some disj a, b: Account | a.holds.grants = b.holds.grants && a.holds != b.holds } for 4
