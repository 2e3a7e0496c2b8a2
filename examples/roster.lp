night.
{ on_duty(anna); on_duty(bea) } :- night.
two :- on_duty(anna), on_duty(bea).
alone(P) :- on_duty(P), not two.
:- night, not on_duty(anna), not on_duty(bea).
