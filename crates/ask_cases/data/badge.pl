% Enamel badges in their boxes: badge(Front, Back, Lid, Box, Firing).
% Rules are tried from the top. A variable that stands twice in a rule is one enamel both times.

badge(E,    E,           _, _, soft).      % front and back in one enamel
badge(E,    over(E),     _, _, medium).    % on the back the same, with a clear coat over it
badge(red,  over(white), _, _, medium).
badge(blue, over(white), _, _, medium).

% The back has four fields of the front's enamel, and the box four of its lid's.
badge(E, four(E, E, E, E), L, four(L, L, L, L), hard).
badge(_, _,                L, L,                hard).     % lid and box in one enamel
