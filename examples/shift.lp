on_shift(anna). on_shift(bea).
retried(P) :- on_shift(P), not other_retried(P).
other_retried(P) :- on_shift(P), retried(Q), Q != P.
made_it_fail(carl) :- retried(P).
note("queue restarted") :- retried(anna).
:- retried(bea), not early(bea).
early(bea) :- not late(bea).
late(bea) :- not early(bea).
