% An ask as a constraint model. model.md says the same in words; `bench/asks/minizinc ASK` writes its data.

% The kept plans: points with a least and a greatest tick, and differences between them.
int: POINTS;
array[1..POINTS] of int: low;
array[1..POINTS] of int: high;
int: DIFFERENCES;
array[1..DIFFERENCES] of int: before;
array[1..DIFFERENCES] of int: after;
array[1..DIFFERENCES] of int: ticks;

% Kept holds, each with the points that it is tied to; those of resource r are the numbers first[r] to last[r], in their order.
int: RESOURCES;
int: HOLDS;
array[1..RESOURCES] of int: first;
array[1..RESOURCES] of int: last;
array[1..RESOURCES] of int: gap;
array[1..HOLDS] of int: begin_point;
array[1..HOLDS] of int: begin_ticks;
array[1..HOLDS] of int: end_point;
array[1..HOLDS] of int: end_ticks;
array[1..HOLDS] of int: mode;

% The route: edges between states, and for each step the edges that it may take. The last edge rests at the goal.
int: floor;
int: latest;
int: line_end; % the last point of the asked sheet's line, or 0
int: STATES;
int: EDGES;
int: STEPS;
set of int: starts;
int: goal;
array[1..STATES] of int: to_go;
array[1..EDGES] of int: source;
array[1..EDGES] of int: target;
array[1..EDGES] of int: least;
array[1..EDGES] of int: most;
array[1..STEPS] of set of int: layer;

% Own holds: the edges that have it, and each side tied to the start (0) or the end (1) of the action.
int: OWN;
array[1..OWN] of set of int: own_edges;
array[1..OWN] of int: own_resource;
array[1..OWN] of 0..1: own_begin;
array[1..OWN] of int: own_begin_ticks;
array[1..OWN] of 0..1: own_end;
array[1..OWN] of int: own_end_ticks;
array[1..OWN] of int: own_mode;

% Slots: an own hold that a step may have; and the pairs of slots whose holds might meet.
int: SLOTS;
array[1..SLOTS] of int: slot_step;
array[1..SLOTS] of int: slot_own;
int: MEETINGS;
array[1..MEETINGS] of int: one;
array[1..MEETINGS] of int: two;

array[1..POINTS] of var int: x;
array[0..STEPS] of var floor..latest: t;
array[0..STEPS] of var 1..STATES: s;
array[1..STEPS] of var 1..EDGES: e;
var floor..latest: end = t[STEPS];

constraint forall(p in 1..POINTS)(x[p] in low[p]..high[p]);
constraint forall(d in 1..DIFFERENCES)(x[after[d]] - x[before[d]] >= ticks[d]);

% The route.
constraint s[0] in starts /\ s[STEPS] = goal;
constraint forall(k in 1..STEPS)(e[k] in layer[k] /\ s[k - 1] = source[e[k]] /\ s[k] = target[e[k]]);
constraint forall(k in 1..STEPS)(t[k] - t[k - 1] >= least[e[k]] /\ t[k] - t[k - 1] <= most[e[k]]);
constraint if line_end > 0 then end > x[line_end] else true endif;
% Implied: no way to the goal is shorter than `to_go`.
constraint forall(k in 0..STEPS)(t[k] + to_go[s[k]] <= end);

% Each own hold that is taken stands at a place: so many kept holds of its resource are before it.
function int: kept_count(int: i) = last[own_resource[slot_own[i]]] - first[own_resource[slot_own[i]]] + 1;
function int: kept(int: i, int: j) = first[own_resource[slot_own[i]]] + j - 1;
function int: changeover(int: i, int: m) = if own_mode[slot_own[i]] != m then gap[own_resource[slot_own[i]]] else 0 endif;
function var int: begins(int: i) = t[slot_step[i] - 1 + own_begin[slot_own[i]]] + own_begin_ticks[slot_own[i]];
function var int: ends(int: i) = t[slot_step[i] - 1 + own_end[slot_own[i]]] + own_end_ticks[slot_own[i]];

% Place 0 stands before all kept holds. A slot that is not taken has the place -1.
array[1..SLOTS] of var int: place;
array[1..SLOTS] of var bool: taken;
constraint forall(i in 1..SLOTS)(
    place[i] in -1..kept_count(i) /\ (taken[i] <-> e[slot_step[i]] in own_edges[slot_own[i]]) /\ (taken[i] <-> place[i] >= 0)
);
constraint forall(i in 1..SLOTS, j in 1..kept_count(i))(
    let { int: h = kept(i, j) } in
    (place[i] >= j -> begins(i) >= x[end_point[h]] + end_ticks[h] + changeover(i, mode[h])) /\
    (taken[i] /\ place[i] < j -> ends(i) + changeover(i, mode[h]) <= x[begin_point[h]] + begin_ticks[h])
);
constraint forall(m in 1..MEETINGS)(
    let { int: g = changeover(one[m], own_mode[slot_own[two[m]]]) } in
    taken[one[m]] /\ taken[two[m]] -> ends(one[m]) + g <= begins(two[m]) \/ ends(two[m]) + g <= begins(one[m])
);

solve :: seq_search([
    int_search([end], input_order, indomain_min),
    int_search(reverse(e), input_order, indomain_min),
    int_search(reverse(place), input_order, indomain_max),
    int_search(array1d(t), input_order, indomain_min),
    int_search(x, input_order, indomain_min)
]) minimize end;

output ["end \(end)\n"];
