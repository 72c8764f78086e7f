% Firing in the enamel shop: rule(Urgency, Enamel, Piece, Firing).
% Rules are tried from the top. _ is a blank that fits everything.

% Urgency 9: the customer waits.
rule(9, red,  ring,        soft).
rule(9, red,  brooch,      soft).
rule(9, red,  bowl(small), medium).
rule(9, blue, ring,        medium).
rule(9, blue, bowl(large), hard).

% Urgency 10: called for today.
rule(10, red,   ring,        soft).
rule(10, red,   bowl(small), soft).
rule(10, blue,  ring,        medium).
rule(10, white, _,           soft).      % white runs: never more than soft

% No hurry, and what is left.
rule(01, black, ring,   heat(820)).      % degrees
rule(_,  black, _Piece, hard).
rule(_,  _,     _,      medium).
