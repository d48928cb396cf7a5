// People with their mothers, fathers and spouses.
abstract sig Person { mother: lone Woman, father: lone Man, spouse: lone Person }
sig Woman, Man extends Person {}
fact { no p: Person | p in p.^(mother + father) }
fact { spouse = ~spouse }
fact { no p: Woman | some p.spouse & Woman }
fact { no p: Man | some p.spouse & Man }
run { some spouse && some mother && some father } for 5
