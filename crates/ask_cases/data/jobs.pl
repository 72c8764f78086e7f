% Jobs of last month, one to a line: mostly what can be fired with an enamel at a heat.
rule(Urgency, red, Piece, soft)
rule(Urgency, blue, Piece, medium)
rule(9, red, ring, Firing)
rule(Urgency, white, Piece, soft)
rule(Urgency, red, bowl(Size), soft)
rule(Urgency, black, Piece, heat(Degrees))
rule(10, white, ring, Firing)
rule(Urgency, blue, ring, medium)
rule(Urgency, red, brooch, Firing)
rule(Urgency, blue, Piece, hard)

% The second half.
rule(Urgency, red, Piece, medium)
rule(Urgency, red, ring
rule(Urgency, black, ring, hard)
rule(9, blue, bowl(large), Firing)
rule(Urgency, green, Piece, soft)
rule(Urgency, white, bowl(small), soft).
rule(Urgency, red, Piece, hard)
rule(Urgency, Enamel, ring, soft)
rule(10, blue, Piece, medium)
rule(Urgency, black, Piece, soft)
