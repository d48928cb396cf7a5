// Towns with roads between them, and depots that serve their own town and its neighbours.
sig Town { road: set Town }
sig Depot { in_town: one Town, serves: some Town }
fact { road = ~road && no iden & road }
fact { all t: Town | Town in t.*road }
fact { all d: Depot | d.serves in d.in_town + d.in_town.road }
fact { all t: Town | one serves.t }
fact { no disj d, e: Depot | d.in_town = e.in_town }
run { some disj d, e: Depot | some d.serves && some e.serves } for 5
