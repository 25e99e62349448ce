% The whole script of an ask at once: all sheets are known from the start, and each may start after its job came.
% `bench/asks/compare SOLVER --whole` writes its data.

int: SHEETS;
int: STATES;
int: EDGES;
int: STEPS;
int: POINTS;
int: latest;
% Sheets in the order of their line: the first and the last point, and the first tick at which one may start.
array[1..SHEETS] of int: first_point;
array[1..SHEETS] of int: last_point;
array[1..SHEETS] of int: floor;
array[1..SHEETS] of set of int: starts;
array[1..SHEETS] of int: goal;
% Each step leads from a point to the next one.
array[1..STEPS] of int: step_point;
array[1..STEPS] of set of int: layer;
array[1..EDGES] of int: source;
array[1..EDGES] of int: target;
array[1..EDGES] of int: least;
array[1..EDGES] of int: most;

int: OWN;
array[1..OWN] of set of int: own_edges;
array[1..OWN] of int: own_resource;
array[1..OWN] of 0..1: own_begin;
array[1..OWN] of int: own_begin_ticks;
array[1..OWN] of 0..1: own_end;
array[1..OWN] of int: own_end_ticks;
array[1..OWN] of int: own_mode;
int: RESOURCES;
array[1..RESOURCES] of int: gap;
int: SLOTS;
array[1..SLOTS] of int: slot_step;
array[1..SLOTS] of int: slot_own;
int: MEETINGS;
array[1..MEETINGS] of int: one;
array[1..MEETINGS] of int: two;

array[1..POINTS] of var 0..latest: t;
array[1..POINTS] of var 1..STATES: s;
array[1..STEPS] of var 1..EDGES: e;
array[1..MEETINGS] of var bool: first;
var 0..latest: end = t[last_point[SHEETS]];

constraint forall(i in 1..SHEETS)(s[first_point[i]] in starts[i] /\ s[last_point[i]] = goal[i] /\ t[first_point[i]] >= floor[i]);
constraint forall(i in 1..SHEETS - 1)(t[last_point[i]] < t[last_point[i + 1]]);
constraint forall(k in 1..STEPS)(
    let { int: p = step_point[k] } in
    e[k] in layer[k] /\ s[p] = source[e[k]] /\ s[p + 1] = target[e[k]] /\
    t[p + 1] - t[p] >= least[e[k]] /\ t[p + 1] - t[p] <= most[e[k]]
);

array[1..SLOTS] of var bool: taken;
constraint forall(i in 1..SLOTS)(taken[i] <-> e[slot_step[i]] in own_edges[slot_own[i]]);
function var int: begins(int: i) = t[step_point[slot_step[i]] + own_begin[slot_own[i]]] + own_begin_ticks[slot_own[i]];
function var int: ends(int: i) = t[step_point[slot_step[i]] + own_end[slot_own[i]]] + own_end_ticks[slot_own[i]];
constraint forall(m in 1..MEETINGS)(
    let {
        int: i = one[m];
        int: j = two[m];
        int: g = if own_mode[slot_own[i]] != own_mode[slot_own[j]] then gap[own_resource[slot_own[i]]] else 0 endif
    } in
    (taken[i] /\ taken[j] /\ first[m] -> ends(i) + g <= begins(j)) /\
    (taken[i] /\ taken[j] /\ not first[m] -> ends(j) + g <= begins(i))
);

solve :: seq_search([
    int_search([end], input_order, indomain_min),
    int_search(e, input_order, indomain_min),
    bool_search(first, input_order, indomain_max),
    int_search(t, smallest, indomain_min)
]) minimize end;

output ["end \(end)\n"];
